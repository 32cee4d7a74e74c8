// The steps of a worker, each with the calls of the sources that take it.
#pragma once
#include <cstdint>
#include <vector>

using Byte = std::uint8_t;

// Where a worker is: the step that it takes next.
enum class Step : Byte {
    MakeRoom, ReadHalt, PopOwn, Steal, ClaimTurn, ClaimGive, ScanTurn, ScanGive, ReadLive,
    Announce, ReadEpoch, SecondHalt, LookTurn, LookGive, SecondLive, CompareEpoch, Park, Asleep, Cancel,
    BeginBody, EndBody,
    SendTurn, OldestTurn, WaitingTurn, SendItem, SendFired, PushOlder, OneReadWaiters, OneRaiseEpoch, OneWake,
    EndTurn, EndGive, PeekLive, LowerLive,
    RaiseHalt, AllReadWaiters, AllRaiseEpoch, AllWake, EndedQuiet, EndedHalted,
    Count
};

// How a step accesses what workers share. It matters only for the variants with late stores: a store may wait in its
// worker's store buffer, a load may come before it, and a step that loads and stores at once first empties the buffer.
enum class Access { None, Load, Store, LoadAndStore };

// A call of the sources: the file, below crates/ or in the kit, the function that calls, and the call. `tools/model`
// looks for it there.
struct Place {
    const char *file, *function, *call;
};

struct StepText {
    Step step;
    const char *name;
    Access access;
    std::vector<Place> places;
};

constexpr const char *WORKER = "worker_core/src/worker.rt";
constexpr const char *NEXT = "worker_core/src/next.rt";
constexpr const char *STEALING = "worker_core/src/stealing.rt";
constexpr const char *CLAIMING = "worker_core/src/claiming.rt";
constexpr const char *SLEEPING = "worker_core/src/sleeping.rt";
constexpr const char *RUNNING = "worker_core/src/running.rt";
constexpr const char *SENDING = "worker_core/src/sending.rt";
constexpr const char *WAITING = "worker_core/src/waiting.rt";
constexpr const char *ENDING = "worker_core/src/ending.rt";
constexpr const char *BOARD = "dep_table/src/board.rt";
constexpr const char *TRIES = "dep_table/src/tries.rt";
constexpr const char *TURN = "dep_table/src/turn.rt";
constexpr const char *TABLE_SENDING = "dep_table/src/sending.rt";
constexpr const char *CALLS = "dep_table/src/calls.rt";
constexpr const char *EVENTS = "kit: crossbeam_utils/src/sync/event_count.rt";

inline const StepText STEPS[] = {
    // The next task: `claim_next` calls `next_task`, and this `look_or_rest`, which calls `look_once` and `rest`. In a
    // run without a log, a worker begins at ReadHalt.
    {Step::MakeRoom, "MakeRoom", Access::None, {{WORKER, "claim_next", "log.make_room()"}}},
    {Step::ReadHalt, "ReadHalt", Access::Load, {{NEXT, "next_task", "post.board.halted(pass)"}}},
    // From the slot or, if that is empty, from the worker's own deque.
    {Step::PopOwn, "PopOwn", Access::Load, {{STEALING, "take_id", "hands.pop()"}}},
    {Step::Steal, "Steal", Access::Load, {{STEALING, "steal_among", "hands.steal(rt, from)"}}},
    {Step::ClaimTurn, "ClaimTurn", Access::LoadAndStore,
     {{CLAIMING, "claim", "post.board.try_claim(pass, shard, t)"},
      {TRIES, "claim_once", "self.try_turn(pass, shard)"}}},
    {Step::ClaimGive, "ClaimGive", Access::Store,
     {{TURN, "claim", "table.words.give_claim(&mut pass.seat, shard, t, &tiles)"},
      {TURN, "claim", "table.words.give(&mut pass.seat, shard)"}}},
    {Step::ScanTurn, "ScanTurn", Access::LoadAndStore,
     {{CLAIMING, "scan", "post.board.try_scan(pass, scans.next)"},
      {TRIES, "scan_once", "self.try_turn(pass, shard)"}}},
    {Step::ScanGive, "ScanGive", Access::Store,
     {{TRIES, "scan_once", "turn.claim_best(&t)"},
      {TRIES, "scan_once", "turn.leave()"}}},
    {Step::ReadLive, "ReadLive", Access::Load, {{NEXT, "see_quiet", "post.board.see_quiet(pass)"}}},

    // The sleep: `rest` calls `sleep`.
    {Step::Announce, "Announce", Access::LoadAndStore,
     {{SLEEPING, "sleep", "events.prepare_wait()"},
      {EVENTS, "prepare_wait", "self.waiters.fetch_add(1, SeqCst)"}}},
    {Step::ReadEpoch, "ReadEpoch", Access::Load, {{EVENTS, "prepare_wait", "self.epoch.load(SeqCst)"}}},
    {Step::SecondHalt, "SecondHalt", Access::Load, {{SLEEPING, "sleep", "post.board.halted(pass)"}}},
    {Step::LookTurn, "LookTurn", Access::LoadAndStore,
     {{CLAIMING, "scan_all", "post.board.try_scan(pass, shard)"},
      {TRIES, "scan_once", "self.try_turn(pass, shard)"}}},
    {Step::LookGive, "LookGive", Access::Store,
     {{TRIES, "scan_once", "turn.claim_best(&t)"},
      {TRIES, "scan_once", "turn.leave()"}}},
    {Step::SecondLive, "SecondLive", Access::Load, {{SLEEPING, "look_at_all", "see_quiet(post, pass)"}}},
    {Step::CompareEpoch, "CompareEpoch", Access::Load,
     {{SLEEPING, "sleep", "announced.wait(post.rt)"},
      {EVENTS, "wait", "epoch.load(SeqCst) != self.epoch"}}},
    // The kernel compares the word again and queues the worker, in one step. That its call empties the worker's store
    // buffer is not assumed.
    {Step::Park, "Park", Access::Load, {{EVENTS, "wait", "epoch.park(rt, (self.epoch & 0xffff_ffff) as u32)"}}},
    {Step::Asleep, "Asleep", Access::None, {{EVENTS, "wait", "epoch.park(rt, (self.epoch & 0xffff_ffff) as u32)"}}},
    // The sleep's key is dropped: at the end of `wait`, or else of `sleep`.
    {Step::Cancel, "Cancel", Access::LoadAndStore, {{EVENTS, "drop", "of.waiters.fetch_sub(1, SeqCst)"}}},

    // The run of a task: `run_found`.
    {Step::BeginBody, "BeginBody", Access::LoadAndStore,
     {{RUNNING, "run_found", "post.gate.before_body(post.rt, post.worker, &found.task)"}}},
    {Step::EndBody, "EndBody", Access::None, {{RUNNING, "run_found", "run_body(post, bench, &placed.at, arrivals)"}}},
    // Its sends: `send_and_end` calls `send_all`. This walks over the task's items, and tries each one once. An item
    // whose turn is taken waits.
    {Step::SendTurn, "SendTurn", Access::LoadAndStore,
     {{SENDING, "send_all", "try_item(context, pass, hands, shard, &item)"},
      {SENDING, "send_all", "outbox.waiting.push(WaitingItem { item, shard })"},
      {SENDING, "try_item", "context.board.try_send(pass, shard, item, tile)"},
      {TRIES, "send_once", "self.try_turn(pass, shard)"}}},
    // If as many items wait as may, the worker tries to send the oldest one until it is sent.
    {Step::OldestTurn, "OldestTurn", Access::LoadAndStore,
     {{SENDING, "send_all", "make_room(context, pass, hands, &mut outbox.waiting)"},
      {WAITING, "make_room", "try_waiting(context, pass, hands, waiting, 0)"},
      {WAITING, "try_waiting", "try_item(context, pass, hands, next.shard, &next.item)"}}},
    // After the walk, `send_waiting` calls `try_each`, and this tries each item that waits, until none does.
    {Step::WaitingTurn, "WaitingTurn", Access::LoadAndStore,
     {{SENDING, "send_all", "send_waiting(context, pass, hands, &mut outbox.waiting)"},
      {WAITING, "send_waiting", "try_each(context, pass, hands, waiting)"},
      {WAITING, "try_each", "try_waiting(context, pass, hands, waiting, index)"}}},
    // A send that fires its target raises the live word, and needs an empty store buffer for that: `send_item` of the
    // model. Others give the turn back.
    {Step::SendItem, "SendItem", Access::Store,
     {{TABLE_SENDING, "send", "table.raise_for(&mut pass.seat, answer)"},
      {TABLE_SENDING, "send", "table.words.give_send(&mut pass.seat, shard, item, tile)"},
      {TABLE_SENDING, "send", "table.words.give(&mut pass.seat, shard)"}}},
    {Step::SendFired, "SendFired", Access::Store,
     {{TABLE_SENDING, "send", "table.words.give_send(&mut pass.seat, shard, item, tile)"}}},
    // Only if the slot keeps an id. Else the push accesses nothing that is shared, and is part of SendFired.
    {Step::PushOlder, "PushOlder", Access::LoadAndStore, {{SENDING, "push_target", "hands.push(edge.to.copy())"}}},
    {Step::OneReadWaiters, "OneReadWaiters", Access::Load,
     {{SENDING, "try_item", "push_target(context.board, hands, item)"},
      {SENDING, "push_target", "wake_one(board)"},
      {EVENTS, "notify_one", "self.waiters.load(SeqCst) != 0"}}},
    {Step::OneRaiseEpoch, "OneRaiseEpoch", Access::LoadAndStore,
     {{EVENTS, "notify_one", "self.epoch.fetch_add(1, SeqCst)"}}},
    {Step::OneWake, "OneWake", Access::Load, {{EVENTS, "notify_one", "self.epoch.wake_one()"}}},
    // Its end, or its trap: `end_one` or `trap_one`.
    {Step::EndTurn, "EndTurn", Access::LoadAndStore,
     {{ENDING, "end_one", "post.board.try_end(pass, shard, t, &mut spent)"},
      {ENDING, "trap_one", "post.board.try_trap(pass, shard, t, cause)"},
      {TRIES, "end_once", "self.try_turn(pass, shard)"},
      {TRIES, "trap_once", "self.try_turn(pass, shard)"}}},
    {Step::EndGive, "EndGive", Access::Store,
     {{TURN, "end", "table.words.give_end(&mut pass.seat, shard)"},
      {TURN, "trap", "table.words.give_end(&mut pass.seat, shard)"},
      {TURN, "trap", "table.words.give(&mut pass.seat, shard)"}}},
    // Only with the variant `quiet_wakes_first`.
    {Step::PeekLive, "PeekLive", Access::Load, {}},
    {Step::LowerLive, "LowerLive", Access::LoadAndStore,
     {{TURN, "end", "table.words.lower_live(&mut pass.seat)"},
      {TURN, "trap", "table.words.lower_live(&mut pass.seat)"}}},

    // The end of the worker: `work_with` halts after an error, and `next_task` wakes all after quiet.
    {Step::RaiseHalt, "RaiseHalt", Access::LoadAndStore,
     {{WORKER, "work_with", "post.board.halt(pass)"},
      {BOARD, "halt", "DepTable::halt(self, pass)"},
      {CALLS, "halt", "self.words.raise_halt(&mut pass.seat)"}}},
    {Step::AllReadWaiters, "AllReadWaiters", Access::Load,
     {{BOARD, "halt", "self.events.notify_all()"},
      {NEXT, "next_task", "wake_all(post.board)"},
      {EVENTS, "notify_all", "self.waiters.load(SeqCst) != 0"}}},
    {Step::AllRaiseEpoch, "AllRaiseEpoch", Access::LoadAndStore,
     {{EVENTS, "notify_all", "self.epoch.fetch_add(1, SeqCst)"}}},
    {Step::AllWake, "AllWake", Access::Load, {{EVENTS, "notify_all", "self.epoch.wake_all()"}}},
    {Step::EndedQuiet, "EndedQuiet", Access::None, {{WORKER, "run_all", "return Ok(Worked { ran })"}}},
    {Step::EndedHalted, "EndedHalted", Access::None, {{WORKER, "work_with", "Err(refused)"}}},
};

inline const StepText &text_of(Step step) { return STEPS[static_cast<int>(step)]; }
