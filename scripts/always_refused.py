"""Bodies that always refuse memory, and the tests, or lines of a script, that refuse them.

    always_refused.py [together] [WORD ..]

A body that answers `Memory` and does nothing meets a contract that says `Memory`. Each row here is a public call with the answer that it then gives, put in
front of its body in a copy of the sources, and a test that asks for the answer there is with ample memory: it has to fail; or a script, for which
wbcache prints then what the right one does not. The copy is compiled without a proof by `rt try`. With words, the rows whose call has
one of them are tried; 'together' tries those of one crate of tests in one copy, which says what it says where none of these calls is made by the tests of
another one of them. It prints for each row which tests failed, and at the end 'N passed, N failed'. One row takes half a minute or more, all of
them some 40 minutes, so the gate does not call it.
"""
import os
import re
import shutil
import subprocess
import sys
import tempfile

TOP = os.path.dirname(os.path.dirname(os.path.abspath(__file__)))
MEMORY = "return Err(Refusal::Memory);"
BACK = "return (devices, Err(Refusal::Memory));"
# A script that has a block replaced, and what is printed of it.
REPLACEMENT = "".join(rf"r {block * 64} 1\nr {block * 64} 1\nwork\n" for block in range(4)) + r"r 256 1\nr 256 1\nr 256 1\nwork\n|replaced 0 by 4 at 0\n"
# The call, its file, the function there, what it then does (with `if` and a condition: then alone), the crate of tests, and the test; or
# `wbcache`, and what the right one prints for a script, as caught.txt has them.
ROWS = [
    ("Target::open", "wb_target/opening", "open", BACK, "wb_tests_target", "a_block_is_cached_at_its_second_access"),
    ("Target::client", "wb_target/target", "client", "return Err((devices, Refusal::Memory));", "wb_tests_target", "a_block_is_cached_at_its_second_access"),
    ("Target::status", "wb_target/target", "status", MEMORY, "wb_tests_target", "four_clients_read_one_sector"),
    ("Target::suspend", "wb_target/target", "suspend", BACK, "wb_tests_target", "a_suspended_cache_is_opened_as_it_was"),
    ("Client::read", "wb_target/blocking", "read", "return Err(Stopped { done: 0, refusal: Refusal::Memory });", "wb_tests_target", "a_block_is_cached_at_its_second_access"),
    ("Client::write", "wb_target/blocking", "write", "return Err(Stopped { done: 0, refusal: Refusal::Memory });", "wb_tests_target", "a_block_is_cached_at_its_second_access"),
    ("Client::message, a setting", "wb_target/messages", "set", MEMORY, "wbcache", r"message promote_min 3\nr 0 1\n|ok\n0 00\n"),
    ("Client::message, ranges", "wb_target/invalidating", "invalidate", MEMORY, "wbcache", r"message invalidate_cblocks 0-2\nr 0 1\n|ok\n0 00\n|1 passthrough tinylfu 0"),
    ("Client::flush", "wb_target/carrying", "flush", MEMORY, "wbcache", r"flush\nr 0 1\n|ok\n0 00\n"),
    ("Client::tick", "wb_target/carrying", "tick", MEMORY, "wbcache", r"tick\nr 0 1\n|ok\n0 00\n"),
    ("Client::work_one, a promotion", "wb_target/carrying", "carry_out", "if matches!(order, Order::Promote(_, _)) " + MEMORY, "wb_tests_target", "a_block_is_cached_at_its_second_access"),
    ("Client::work_one, a replacement", "wb_target/carrying", "carry_out", "if matches!(order, Order::Replace(_, _, _)) " + MEMORY, "wbcache", REPLACEMENT),
    ("Client::work_one, a write-back", "wb_target/carrying", "carry_out", "if matches!(order, Order::Clean(_)) " + MEMORY, "wbcache", r"w 0 1 11\nr 0 1\nwork\nw 0 1 22\ntick\nwork\n|ok\ncleaned 0\n"),
    ("Client::write_fua", "wb_target/durable", "write_fua", "return Err(Stopped { done: 0, refusal: wb_types::Refusal::Memory });", "wbcache", r"wf 0 1 11\nr 0 1\n|ok\n0 11\n"),
    ("Target::together", "wb_target/together", "together", "return Err(AllocError);", "wb_tests_target", "devices_come_back_each_in_its_place"),
    ("Desk::new", "wb_desk/desk", "new", MEMORY, "wb_tests_desk", "orders_are_given_and_given_up"),
    ("Desk::map", "wb_desk/desk/mapping", "map", MEMORY, "wb_tests_desk", "orders_are_given_and_given_up"),
    ("Desk::begin_commit", "wb_desk/desk/commit", "begin_commit", MEMORY, "wb_tests_desk", "commits_follow_on_each_other"),
    ("Desk::arrive", "wb_desk/desk/sharing", "arrive", MEMORY, "wb_tests_desk", "flushes_that_wait_share_the_next_commit"),
    ("Desk::ask", "wb_desk/desk/sharing", "ask", MEMORY, "wb_tests_desk", "flushes_that_wait_share_the_next_commit"),
    ("Tree::set", "wb_tree/tree", "set", MEMORY, "wb_tests_meta", "entries_come_and_go"),
    ("Tree::plan", "wb_tree/tree", "plan", MEMORY, "wb_tests_meta", "a_leaf_alone_is_planned"),
    ("Tree::places", "wb_tree/tree", "places", MEMORY, "wb_tests_meta", "a_leaf_alone_is_planned"),
    ("Loader::new", "wb_tree/loader", "new", MEMORY, "wb_tests_meta", "a_device_of_one_node_is_read_in_three_steps"),
    ("Loader::tell", "wb_tree/loader", "tell", MEMORY, "wb_tests_meta", "a_device_of_one_node_is_read_in_three_steps"),
    ("Loader::finish", "wb_tree/loader", "finish", MEMORY, "wb_tests_meta", "a_device_of_one_node_is_read_in_three_steps"),
    ("read_state", "wb_meta/read_steps", "read_state", MEMORY, "wb_tests_meta", "rounds_follow_one_another"),
    ("ReadSteps::next", "wb_meta/read_steps", "next", MEMORY, "wb_tests_meta", "a_device_of_one_node_is_read_in_three_steps"),
    ("TinyLfu::new", "wb_policy/tiny_lfu", "new", MEMORY, "wb_tests_policy", "mapped_blocks_are_placed_by_hint_then_by_cache_block"),
    ("TinyLfu::mapped", "wb_policy/tiny_lfu", "mapped", MEMORY, "wb_tests_policy", "a_full_cache_replaces_only_by_a_greater_estimate"),
    ("Cleaner::new", "wb_policy/cleaner", "new", MEMORY, "wb_tests_policy", "ticks"),
    ("Sketch::new", "wb_sketch/sketch", "new", MEMORY, "wb_tests_policy", "a_block_accessed_past_the_reset"),
    ("BitSet::new", "wb_bits/bit_set", "new", "return Err(AllocError);", "wb_tests_policy", "every_block_is_found_in_turn"),
    ("Space::new", "wb_space/space", "new", MEMORY, "wb_tests_policy", "every_block_is_found_in_turn"),
    ("Space::free_places", "wb_space/space", "free_places", MEMORY, "wb_tests_policy", "the_least_free_places_rise"),
    ("LiveOrders::new", "wb_orders/live_orders", "new", MEMORY, "wb_tests_policy", "orders_come_and_go"),
    ("read_table", "wb_table/table", "read_table", MEMORY, "wb_tests_disk", "a_line_gives_mode_policy_and_keys"),
    ("read_message", "wb_table/message", "read_message", MEMORY, "wb_tests_disk", "ranges_are_named_in_their_order"),
    ("status_text", "wb_table/status", "status_text", MEMORY, "wb_tests_disk", "each_figure_has_its_place"),
    ("MemDisk::new", "wb_disk/memory", "new", MEMORY, "wb_tests_disk", "a_read_gives_the_latest_write"),
    ("MemDisk::room", "wb_disk/memory", "room", MEMORY, "wb_tests_hostile", "room_is_made_where_there_is_memory"),
    ("Cells::new", "wb_cells/cells", "new", "return Err(Refusal::Memory);", "wb_tests_tasks", "four_threads_finish_a_thousand_writes_each"),
    ("World::new", "wb_world/world", "new", MEMORY, "wb_tests_world", "a_list_of_events_is_run_to_its_end"),
    ("World::event", "wb_world/world", "event", MEMORY, "wb_tests_world", "a_list_of_events_is_run_to_its_end"),
    ("wb_world::run", "wb_world/running", "run", MEMORY, "wb_tests_world", "a_list_of_events_is_run_to_its_end"),
    ("Connection::serve", "wb_nbd/connection", "serve", "return Err(Broken::Memory);", "wb_tests_nbd", "of_two_requests_in_flight_the_later_ends_first"),
    ("transmit", "wb_nbd/transmission", "transmit", "return Err(Broken::Memory);", "wb_tests_nbd", "each_request_has_its_reply"),
]


def refuse(folder, path, function, what):
    """Puts the answer in front of the function's body."""
    name = f"{folder}/crates/{path.replace('/', '/src/', 1)}.rt"
    with open(name, encoding="utf-8") as file:
        lines = file.read().split("\n")
    at = next(i for i, line in enumerate(lines) if re.search(rf"\bfn {function}\b", line))
    while not (lines[at].strip() == "{" or lines[at].endswith(" {") and re.match(r" *(pub )?(fn |\) ->)", lines[at])):
        at += 1
    condition, answer = re.match(r"(?:if (.*) )?(return .*)", what).groups()
    lines.insert(at + 1, f"if {condition or 'true'} {{ {answer} }}")
    with open(name, "w", encoding="utf-8") as file:
        file.write("\n".join(lines))


def failing(folder, crate):
    """The tests that fail, none of them where the copy is not compiled, and what was said last."""
    done = subprocess.run(["rt", "try", "--test"], cwd=f"{folder}/crates/{crate}", stdout=subprocess.PIPE, stderr=subprocess.STDOUT, text=True)
    tests = re.findall(r"^test (?:\w+::)*(\w+) \.\.\. ?(\w*)", done.stdout, re.M)
    return [name for name, answer in tests if answer != "ok"], done.stdout[-600:]


def copy_of(folder):
    """A copy of what is compiled."""
    shutil.copy(f"{TOP}/crates.txt", folder)
    shutil.copy(f"{TOP}/HANDLES", folder)
    shutil.copytree(f"{TOP}/crates", f"{folder}/crates", ignore=shutil.ignore_patterns("out", "bugs", "must-fail"))


def main():
    # It stands on this one.
    from caught import is_caught_by

    words, passed, failed = sys.argv[1:], 0, 0
    is_together = words[:1] == ["together"]
    chosen = [row for row in ROWS if not words[is_together:] or any(word in row[0] for word in words[is_together:])]
    crates = sorted({row[4] for row in chosen if row[4].startswith("wb_tests_")}) if is_together else []
    alone = [row for row in chosen if row[4] not in crates]
    for rows in [[row for row in chosen if row[4] == crate] for crate in crates] + [[row] for row in alone]:
        with tempfile.TemporaryDirectory() as folder:
            copy_of(folder)
            for _, path, function, what, _, _ in rows:
                refuse(folder, path, function, what)
            if len(rows) == 1:
                outcomes = [is_caught_by(folder, *rows[0][4:])]
            else:
                tests, said = failing(folder, rows[0][4])
                outcomes = [(row[5] in tests, f"{len(tests)} of {row[4]}: {' '.join(tests)}" if tests else said) for row in rows]
        for row, (is_right, told) in zip(rows, outcomes):
            passed, failed = passed + is_right, failed + (not is_right)
            print(f"{'ok' if is_right else 'failed'}: {row[0]}: {told}", flush=True)
    print(f"{passed} passed, {failed} failed")
    sys.exit(failed > 0)


if __name__ == "__main__":
    main()
