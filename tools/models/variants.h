// Wrong variants of the protocol: what hangs without one of its rules shows what the rule is for.
#pragma once
#include <vector>

// Each switch is off in the right protocol. Its line says what the wrong program would do.
struct Variant {
    // It parks without a second look.
    bool no_second_look = false;
    // It looks a second time, but only at the halt word and for quiet.
    bool second_look_skips_shards = false;
    // It looks a second time, but not at the halt word.
    bool second_look_skips_halt = false;
    // It looks a second time, but not for quiet.
    bool second_look_skips_quiet = false;
    // In the second look it takes a shard whose turn is held for one without a ready task.
    bool busy_counts_as_empty = false;
    // It looks first, announces its sleep afterwards, and parks.
    bool looks_before_announcing = false;
    // It never scans a shard before its second look.
    bool first_look_never_scans = false;
    // It never finds an id in the deque of another worker.
    bool steals_find_nothing = false;
    // A worker that is refused memory, or sees the halt, ends without raising the halt word.
    bool error_does_not_halt = false;
    // Whoever halts wakes nobody.
    bool halt_wakes_nobody = false;
    // Whoever halts wakes the sleepers before it raises the halt word, and not after.
    bool halt_wakes_first = false;
    // Whoever halts wakes one sleeper, not all.
    bool halt_wakes_one = false;
    // Whoever sees quiet wakes nobody.
    bool quiet_wakes_nobody = false;
    // Whoever is about to end the last task wakes all sleepers before it lowers the live word. Nobody wakes them after.
    bool quiet_wakes_first = false;
    // Whoever sees quiet wakes one sleeper, not all.
    bool quiet_wakes_one = false;
    // Whoever pushes a second id wakes nobody.
    bool push_wakes_nobody = false;
    // Whoever sends an item that waited, and so pushes a second id, wakes nobody.
    bool waited_send_wakes_nobody = false;
    // If the second id is dropped, since the deque was refused memory, nobody is woken.
    bool dropped_id_wakes_nobody = false;
    // Whoever keeps an id wakes a sleeper before each further try of a send, not after the push.
    bool push_wakes_first = false;
    // `notify_one` wakes any sleeper, not the one that sleeps longest. The kit's page allows that for threads of
    // different priorities, so it is no fault.
    bool any_sleeper_wakes = false;
    // The store of the halt word waits in a store buffer, as with the order `Release` on x86.
    bool halt_is_stored_late = false;
    // The stores that give a turn back wait in a store buffer, as with the order `Release` on x86.
    bool turns_are_given_late = false;
};

// A wrong variant: the switches that are on, and whether a scenario has to hang with them. If none is known that does,
// the rule may be needed only in larger scenarios, or it may only save time.
struct WrongVariant {
    const char *name;
    std::vector<bool Variant::*> on;
    bool must_hang;

    Variant variant() const {
        Variant it;
        for (auto member : on) it.*member = true;
        return it;
    }
};

inline std::vector<WrongVariant> all_variants() {
    return {
        {"no_second_look", {&Variant::no_second_look}, true},
        {"second_look_skips_shards", {&Variant::second_look_skips_shards}, true},
        {"second_look_skips_halt", {&Variant::second_look_skips_halt}, true},
        {"second_look_skips_quiet", {&Variant::second_look_skips_quiet}, true},
        {"busy_counts_as_empty", {&Variant::busy_counts_as_empty}, true},
        {"looks_before_announcing", {&Variant::looks_before_announcing}, true},
        {"error_does_not_halt", {&Variant::error_does_not_halt}, true},
        {"halt_wakes_nobody", {&Variant::halt_wakes_nobody}, true},
        {"halt_wakes_first", {&Variant::halt_wakes_first}, true},
        {"quiet_wakes_nobody", {&Variant::quiet_wakes_nobody}, true},
        {"quiet_wakes_first", {&Variant::quiet_wakes_first}, true},
        {"push_wakes_nobody", {&Variant::push_wakes_nobody}, true},
        {"waited_send_wakes_nobody", {&Variant::waited_send_wakes_nobody}, true},
        {"dropped_id_wakes_nobody", {&Variant::dropped_id_wakes_nobody}, true},
        {"halt_is_stored_late", {&Variant::halt_is_stored_late}, true},
        {"turns_are_given_late, busy_counts_as_empty",
         {&Variant::turns_are_given_late, &Variant::busy_counts_as_empty}, true},
        // Each worker that a halt wakes ends, and on its way halts again: so it wakes the next one.
        {"halt_wakes_one", {&Variant::halt_wakes_one}, false},
        // So does each worker that quiet wakes.
        {"quiet_wakes_one", {&Variant::quiet_wakes_one}, false},
        // The second look finds what the first one leaves: for progress, steals and scans only save time.
        {"first_look_never_scans", {&Variant::first_look_never_scans}, false},
        {"steals_find_nothing", {&Variant::steals_find_nothing}, false},
        {"first_look_never_scans, steals_find_nothing",
         {&Variant::first_look_never_scans, &Variant::steals_find_nothing}, false},
        // When the wake comes, the task of the kept id is ready or was claimed. If it is ready, the woken worker finds
        // it. The new one is left for the worker that sends.
        {"push_wakes_first", {&Variant::push_wakes_first}, false},
        {"any_sleeper_wakes", {&Variant::any_sleeper_wakes}, false},
        // A shard that was not given back yet is busy, and whoever finds one busy does not sleep.
        {"turns_are_given_late", {&Variant::turns_are_given_late}, false},
    };
}
