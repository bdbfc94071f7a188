#!/usr/bin/env python3
"""Has wrong scripts show pages and hosts, each with the test of tests/browser.py that is to refuse it.

wrong_scripts.py [PROGRAM [NAME..]]     the program that `rt ci` or `./desk --prove` built where none is named; those scripts alone
Each is a part of pages, or a file of demo/live.py, with a text exchanged that stands there once. The last line is 'N passed, M failed'; status 1 where one failed.
"""
import os
import shutil
import subprocess
import sys
import tempfile

sys.dont_write_bytecode = True

from processes import browsing, living, viewing
from processes.running import TOP, Program

PATIENCE = "10"  # seconds that something on a page may take
PAGE = "page/page.js"
LONGER = "60"  # where a second is measured too
MEASURED = ("page_1000_agents_on_256_x_256",)

# A name, the text that stands in the script, what stands in its place, and the test that refuses it.
SCRIPTS = [
    ('lit_a_step_late', 'byTime.get(state.step) ||',
     'byTime.get(state.step - 1) ||', 'page_lit_is_what_the_report_has'),
    ('an_entry_left_out_of_what_is_lit', 'return (byTime.get(state.step) || []).filter(isShown);',
     'return (byTime.get(state.step) || []).filter(isShown).slice(1);', 'page_lit_is_what_the_report_has'),
    ('nobody_leaves', 'if (time > agent.last && agent.leaves) { return null; }',
     '', 'page_lit_is_what_the_report_has'),
    ('agents_a_step_ahead', 'const at = agent.from + 2 * Math.min(time, agent.last);',
     'const at = agent.from + 2 * Math.min(time + 1, agent.last);', 'page_lit_is_what_the_report_has'),
    ('bodies_a_cell_aside', 'pen.arc(spot[0] + 0.5, spot[1] + 0.5,',
     'pen.arc(spot[0] + 1.5, spot[1] + 0.5,', 'page_lit_is_what_the_report_has'),
    ('signs_not_drawn', '    drawSigns(litNow());\n',
     '', 'page_lit_is_what_the_report_has'),
    ('a_click_goes_to_the_start', '    goTo(finding.time);\n',
     '    goTo(0);\n', 'page_clicks_go_to_conflicts'),
    ('not_centred', '    centreOn(...middleOf(finding));\n',
     '', 'page_clicks_go_to_conflicts'),
    ('no_rings', '    marked.forEach(drawMarked);\n',
     '', 'page_clicks_go_to_conflicts'),
    ('verdict_without_visits', "return kind === 'visit' || kind === 'unfinished' ||",
     "return kind === 'unfinished' ||", 'page_verdicts_and_counts'),
    ('parked_doesnt_count', "kind === 'parked' ? 'vertex' : kind",
     'kind', 'page_verdicts_and_counts'),
    ('filter_a_step_short', 'finding.time <= state.to',
     'finding.time < state.to', 'page_filters'),
    ('agent_not_filtered', '(state.picked === null || finding.agents.includes(state.picked.number))',
     'true', 'page_filters'),
    ('loop_never', 'state.loop && state.now >= horizon ? 0 :',
     '', 'page_keys_and_buttons'),
    ('zoom_round_the_corner', 'left: state.left + x / state.scale - x / scale',
     'left: state.left', 'page_zooms_and_moves'),
    ('goal_told_as_start', "from ' + placeOf(agent, 0).join(',')",
     "from ' + agent.goal.join(',')", 'page_picks_agents'),
    ('rows_made_anew_each_time', 'if (state.rows.from !== from ||',
     'if (true ||', 'page_first_click_after_typing'),
]

# The same of what is seen and done by hand, each row with its file.
SEEN_SCRIPTS = [
    (PAGE, 'one_speed', 'seconds * state.speed', 'seconds * 4', 'page_speed_sets_the_pace'),
    ('page/style.css', 'small_time', 'font-size:34px', 'font-size:15px', 'page_time_in_large_figures'),
    (PAGE, 'slider_when_let_go', "onChange('slider', () => goTo(Number(element('slider').value)));",
     "element('slider').addEventListener('change', () => goTo(Number(element('slider').value)));", 'page_slider_is_dragged'),
    (PAGE, 'zoomed_in_numbers_alone', '    state.isFitted = false;\n    turnStale();',
     '    state.isFitted = false;\n    redraw();', 'page_zooms_and_moves_as_seen'),
    (PAGE, 'zoom_round_the_top', 'top: state.top + y / state.scale - y / scale', 'top: state.top', 'page_zooms_and_moves_as_seen'),
    (PAGE, 'dragged_half_as_far', 'moveBy(held[0] - point[0], held[1] - point[1])',
     'moveBy((held[0] - point[0]) / 2, (held[1] - point[1]) / 2)', 'page_zooms_and_moves_as_seen'),
    (PAGE, 'fit_keeps_the_scale', 'state.scale = fittingScale();', 'state.scale = Math.max(state.scale, fittingScale());', 'page_zooms_and_moves_as_seen'),
    (PAGE, 'a_picture_in_ten_frames', '  function draw() {\n', '  function draw() {\n    state.frames += 1;\n    if (state.frames % 10 !== 0) { return; }\n',
     'page_1000_agents_on_256_x_256'),
    (PAGE, 'no_path', '    scene.agents.filter(isMarked).forEach(drawCourse);\n', '', 'page_picks_as_seen'),
    (PAGE, 'path_cut_short', 'step <= agent.last; step += 1) {\n      const at = agent.from', 'step < agent.last; step += 1) {\n      const at = agent.from',
     'page_picks_as_seen'),
    (PAGE, 'nobody_is_faint', 'state.picked !== null || state.chosen !== null ? 0.3 : 1', '1', 'page_picks_as_seen'),
    ('page/body.html', 'slider_not_reached', "<input type='range' id='slider'", "<input type='range' id='slider' tabindex='-1'", 'page_tab_goes_to_all'),
    ('page/body.html', 'called_by_its_sign', " aria-label='To the start' title='To the start (Home)'", '', 'page_tab_goes_to_all'),
    ('page/style.css', 'focus_not_seen', ':focus-visible{outline:3px solid var(--focus);outline-offset:1px}', ':focus{outline:none}', 'page_tab_goes_to_all'),
    (PAGE, 'parked_as_a_ring', "if (finding.kind === 'vertex') {", "if (finding.kind === 'vertex' || finding.kind === 'parked') {", 'page_kinds_have_their_shapes'),
    ('page/style.css', 'green_as_orange', '--c2:#009e73', '--c2:#50dc00', 'page_colours_stay_apart'),
]

# The same of the files by which demo/live.py shows a host, each row with its file.
LIVE_SCRIPTS = [
    ('demo/live.js', 'what_went_stays', '    went.forEach((piece) => piece.remove());\n',
     '', 'live_follows_commits'),
    ('demo/live.js', 'map_painted_anew_at_each_wall', '    scene.rows[y] = row;\n',
     '    scene.rows[y] = row;\n    readLook();\n', 'live_follows_a_large_map'),
    ('demo/live.js', 'text_written_anew_at_each_wall', '    went.forEach((piece) => piece.remove());\n',
     '    element(name).replaceChildren(...pieces[name].filter((piece) => !went.has(piece)));\n', 'live_follows_a_large_map'),
    ('demo/live.js', 'walls_not_painted', 'brush.fillRect(x, y, 1, 1);',
     '', 'live_follows_commits'),
    ('demo/live.js', 'counts_of_before', 'tellCosts, tellCounts, tellChosen',
     'tellCosts, tellChosen', 'live_follows_commits'),
    ('demo/live.js', 'back_to_the_start', 'showTime(state.now);',
     'goTo(0);', 'live_keeps_the_view'),
    ('demo/live.js', 'an_agent_as_it_was', 'scene.byNumber.get(picked.number) || null',
     'picked', 'live_keeps_the_view'),
    ('demo/live.js', 'no_end', 'if (news.over !== null) { tellEnd(news.over); }',
     '', 'live_tells_the_end'),
    ('demo/watcher.py', 'map_of_the_start', 'if edited != self.edited:',
     'if self.edited is None:', 'live_two_browsers'),
    ('demo/watcher.py', 'map_asked_for_at_each_wall', 'self.doubts[ROW, y] = {*self.doubts.get((ROW, y), ()), x}',
     'self.doubts |= {(ROW, it): range(self.size[0]) for it in range(self.size[1])}', 'live_follows_a_large_map'),
    ('demo/live.py', 'map_asked_for_where_it_may_keep_a_log', 'return log, ["--log", log, "--sync", "off"]',
     'return None, []', 'live_follows_a_large_map'),
    ('demo/live.py', 'log_of_the_host_not_read', 'return options.get("--log"), []',
     'return os.devnull, []', 'live_goes_on_from_a_log'),
    ('demo/picture.py', 'map_sent_at_each_wall', 'self.event(False, parts)',
     'self.event(True, {name: ((), list(enumerate(it.whole()))) for name, it in self.texts.items()})', 'live_follows_a_large_map'),
    ('demo/watcher.py', 'ways_round_not_asked_for', 'max(AT_ONCE, len(self.picture.texts["scene"].places) // LOOKS)',
     '0', 'live_follows_commits'),
    ('demo/picture.py', 'all_sent_each_time', 'if many >= self.first:',
     'if many == count:', 'live_follows_a_large_fleet'),
    ('demo/live.js', 'cells_of_before', 'if (isElsewhere(finding, moved)) { lines.push(finding.line); }',
     '', 'live_tells_where_they_are'),
    ('demo/live.py', 'one_browser_alone', 'http.server.ThreadingHTTPServer',
     'http.server.HTTPServer', 'live_two_browsers'),
    ('demo/live.py', 'who_has_gone_stays', 'self.wfile.write(events or b":\\n\\n")',
     'events and self.wfile.write(events)', 'live_two_browsers'),
    ('demo/live.py', 'host_left_behind', 'host.terminate()',
     'pass', 'live_tells_the_end'),
]


def said(program, test, env):
    """The last line of that test of tests/browser.py, with that in the environment."""
    words = [sys.executable, f"{TOP}/tests/browser.py", program, test]
    lines = subprocess.run(words, capture_output=True, text=True, env={**os.environ, **env}).stdout.splitlines()
    return lines[-1] if lines else ""


def fault(program, room, file, row):
    """Why the wrong script, in that place of the room, isn't refused as it is to be; none where it is."""
    _, old, new, test = row
    with open(f"{TOP}/{file}", encoding="ascii") as right:
        script = right.read()
    if script.count(old) != 1:
        return f"{file} has {script.count(old)} times {old!r}"
    for folder in ("demo", "page"):
        shutil.copytree(f"{TOP}/{folder}", f"{room}/{folder}", dirs_exist_ok=True)
    with open(f"{room}/{file}", "w", encoding="ascii") as out:
        out.write(script.replace(old, new))
    is_page = file.startswith("page/")
    patience = {"PATIENCE": PATIENCE if is_page and test not in MEASURED else LONGER}
    last = said(program, test, {**patience, **({viewing.PARTS: f"{room}/page"} if is_page else {living.DEMO: room})})
    return None if last == "0 passed, 1 failed" else f"{test} says {last}"


def main():
    program = os.path.abspath(sys.argv[1] if len(sys.argv) > 1 else Program.path)
    rows = [it for it in [*((PAGE, it) for it in SCRIPTS), *((it[0], it[1:]) for it in (*SEEN_SCRIPTS, *LIVE_SCRIPTS))] if not sys.argv[2:] or it[1][0] in sys.argv[2:]]
    if browsing.missing():
        print(f"left out: {len(rows)} wrong scripts of pages, since there is no browser here\n0 passed, 0 failed")
        return 0
    failed = 0
    with tempfile.TemporaryDirectory() as room:
        for file, row in rows:
            why = fault(program, room, file, row)
            failed += why is not None
            print(f"{row[0]}: {'FAILED: ' + why if why else 'refused by ' + row[3]}", flush=True)
    print(f"{len(rows) - failed} passed, {failed} failed")
    return 1 if failed else 0


if __name__ == "__main__":
    sys.exit(main())
