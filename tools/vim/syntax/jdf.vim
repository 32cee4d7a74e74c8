" Vim syntax file
" Language: JDF as ptg reads it (docs/language.md has its tokens and its grammar)

if exists("b:current_syntax")
  finish
endif

syntax case match

" Where several items fit at one place, Vim takes the one that stands last here, and keywords before all of them.
syntax match jdfError /[^\x00-\x7f]\|[#@$~^\\'`.]/
syntax match jdfOperator /[-+*\/%<>=!&|?:]/
syntax match jdfOperator /==\|!=\|<=\|>=\|&&\|||/
syntax match jdfRange /\.\./
syntax match jdfArrow /<-\|->/

syntax match jdfBadNumber /\<\d\w*\>/
syntax match jdfNumber /\<\%(0\|[1-9]\d*\)\>/

" A name before a parenthesis is a class or a collection; at the start of a line outside of a body a class begins.
syntax match jdfTarget /\<\h\w*\ze\_s*(/
syntax match jdfClass /^\s*\zs\h\w*\ze\s*(/
syntax keyword jdfKind READ WRITE RW CTL nextgroup=jdfFlow skipwhite skipempty
syntax match jdfFlow /\<\h\w*\>/ contained
syntax keyword jdfReserved extern NEW NULL

syntax region jdfProperties start=/\[/ end=/\]/ contains=jdfQuoted,jdfComment

" In a body brackets hold an index; only those right after BODY are properties.
syntax region jdfBody matchgroup=jdfBlock start=/\<BODY\>/ end=/\<END\>/ contains=jdfStatement,@jdfText,jdfBodyProperties
syntax keyword jdfStatement int if else for contained
syntax keyword jdfStatement trap contained nextgroup=jdfTrapWord skipwhite skipempty
syntax match jdfTrapWord /\<\h\w*\>/ contained
syntax region jdfBodyProperties start=/\%(\<BODY\_s*\)\@<=\[/ end=/\]/ contained contains=jdfQuoted,jdfComment
syntax cluster jdfText contains=jdfError,jdfOperator,jdfRange,jdfArrow,jdfBadNumber,jdfNumber,jdfKind,jdfReserved,jdfQuoted,jdfRaw,jdfOption,jdfComment

syntax match jdfOption /%option\>.*/
syntax region jdfRaw start=/%{/ end=/%}/
syntax region jdfQuoted start=/"/ skip=/\\\_./ end=/"/
syntax region jdfComment start="/\*" end="\*/"
syntax match jdfComment "//.*"

syntax sync fromstart

highlight default link jdfArrow Special
highlight default link jdfBadNumber Error
highlight default link jdfBlock Keyword
highlight default link jdfBodyProperties PreProc
highlight default link jdfClass Function
highlight default link jdfComment Comment
highlight default link jdfError Error
highlight default link jdfFlow Identifier
highlight default link jdfKind Type
highlight default link jdfNumber Number
highlight default link jdfOperator Operator
highlight default link jdfOption PreProc
highlight default link jdfProperties PreProc
highlight default link jdfQuoted String
highlight default link jdfRange Special
highlight default link jdfRaw PreProc
highlight default link jdfReserved Constant
highlight default link jdfStatement Statement
highlight default link jdfTarget Function
highlight default link jdfTrapWord Label

let b:current_syntax = "jdf"
