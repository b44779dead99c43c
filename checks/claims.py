"""The claims of README.md, each with the clauses, laws and definitions that give it.

Of a clause, a law or a definition is named the file, the function or the word, the names of the clauses
(none for one without a name), and what it says.
"""
import re
from pathlib import Path
from typing import NamedTuple

CRATES = Path(__file__).resolve().parent.parent / 'crates'

PLAYER = 'rib_player/src/player.rt'
PLAYER_LAWS = 'rib_player/src/laws.rt'
HISTORY = 'rib_player/specs/History.antt'
CALLS = 'rib_player/specs/Calls.antt'
MEANING = 'bgpdump_tool/specs/Meaning.antt'
RESULTS = 'mrt_wire/specs/Results.antt'
DUMP = 'bgpdump_lines/src/dump.rt'
PLAY = 'bgpdump_tool/src/play.rt'
PROGRAM = 'bgpdump/src/run.rt'
IN_MEMORY = 'bgpdump/src/in_memory.rt'
INPUT = 'mrt_frames/src/input.rt'
OUTPUT = 'bgpdump_lines/src/output.rt'


class Ground(NamedTuple):
    """What gives a part of a claim."""
    file: str
    name: str
    clauses: tuple
    says: str


CLAIMS = {
    'The player\'s table gives each peer and prefix the last announcement since its last withdrawal or session '
    'loss among the steps before the cursor': (
        Ground(PLAYER_LAWS, 'law_history_after_all_calls', ('new',),
               'the induction over calls: after any list of them, refused ones too, a new player agrees '
               '(`StandsFor`) with the history that they make'),
        Ground(CALLS, 'history_after', (),
               'that history: `play` cuts it at the cursor and adds its event; no other call changes it'),
        Ground(CALLS, 'after_call', (),
               'what each call makes of a player, in the words of the contracts below; one that changes nothing is a '
               '`Look`'),
        Ground(PLAYER, 'new', ('',), 'a new player is `fresh`'),
        Ground(PLAYER, 'play', ('after_play', 'refused'), 'what it makes of the player'),
        Ground(PLAYER, 'undo', ('after_undo',), 'likewise'),
        Ground(PLAYER, 'redo', ('after_redo',), 'likewise'),
        Ground(PLAYER, 'forget', ('after_forget',), 'likewise'),
        Ground(PLAYER, 'drop_unused_routes', ('',), 'no change; no other public call has `&mut self`'),
        Ground(PLAYER_LAWS, 'law_player_follows_history', ('routes',),
               'where a player agrees with a history, its table has at each pair the `route` of the events before '
               'the cursor'),
        Ground(HISTORY, 'route', (), 'the last event that does not keep the pair decides'),
        Ground(HISTORY, 'item_effect', (),
               'an announcement sets it; a withdrawal, or a loss of the peer\'s session, clears it'),
        Ground('mrt_events/specs/Event.antt', 'peer_cmp', (), 'whose session: a peer is an address and an AS number'),
        Ground(HISTORY, 'is_loss', (), 'the session leaves Established'),
        Ground(PLAYER, 'table', ('routes',), 'callers get the table at the cursor'),
        Ground('rib_player/src/table.rt', 'get', ('',), 'its route at a pair'),
        Ground(PLAYER_LAWS, 'law_last_event_decides_route', ('table',), 'which is that `route` at each pair'),
        Ground(MEANING, 'routes_at', (), 'what a script asks: the table of the events before the cursor'),
        Ground(MEANING, 'meaning', (), 'what each command replies, and what it makes of the history'),
    ),
    'Undo and redo move the cursor one step where there is one, can\'t be refused for want of memory and restore every route': (
        Ground(PLAYER, 'undo', ('after_undo', 'can'),
               'the cursor is one lower and all else as it was, exactly where it was above the floor. The error, '
               '`Nothing`, has no value for want of memory'),
        Ground(PLAYER, 'redo', ('after_redo', 'can'), 'one higher, exactly where a step is ahead'),
        Ground(PLAYER_LAWS, 'law_one_step_back', ('undo', 'redo'), 'one step back and on again'),
        Ground(PLAYER_LAWS, 'law_steps_back_and_forth', ('back', 'forth'),
               'any list of events, played and undone, and redone'),
        Ground(PLAYER_LAWS, 'law_forgetting_keeps_tables', ('tables',), 'positions that are left keep their tables'),
    ),
    'Malformed records and refused steps change no table': (
        Ground(RESULTS, 'ReadsAs', (), 'a record makes an event or has a fault'),
        Ground(RESULTS, 'index_after', (), 'one with a fault leaves the peer index'),
        Ground('mrt_wire/src/source.rt', 'next', ('next', 'first'),
               'the reader answers just that, or a fault of its own, after which it is spent'),
        Ground(MEANING, 'events', (), 'a fault is no event of a script\'s history'),
        Ground(PLAYER, 'play', ('refused',), 'the player is as it was, steps ahead included'),
        Ground(PLAYER, 'table', ('keys',), 'so are its keys, which are stated after each call'),
    ),
    'Lines, replies and reports are the stated function of the bytes read, the script and `-t`': (
        Ground(DUMP, 'run_dump', ('octets', 'text', 'whole_records', 'taken'), 'lines and reports: *octets* is the plain clause, '
               '*text* states besides that nothing written depends on octets that were not taken'),
        Ground(PLAY, 'run_play', ('octets', 'text', 'began', 'whole_records', 'wanted', 'taken'), 'replies and reports'),
        Ground(PROGRAM, 'dump', ('text', 'whole_records'), 'with the program\'s buffers between'),
        Ground(PROGRAM, 'play', ('text', 'whole_records'), 'likewise'),
        Ground(IN_MEMORY, 'dump_in_memory', ('',), 'with all between `main` and a run, over memory'),
        Ground(IN_MEMORY, 'play_in_memory', ('',), 'likewise'),
        Ground('bgpdump_lines/specs/Run.antt', 'EndsWithTexts', (), 'by how it ended: all texts, or fronts of them'),
        Ground('bgpdump_lines/specs/Run.antt', 'dump_texts', (), 'the texts of `-m` from the results'),
        Ground('bgpdump_tool/specs/Course.antt', 'play_texts', (), 'those of a script'),
        Ground(RESULTS, 'results', (), 'the results of frames and a rest'),
        Ground(RESULTS, 'Splits', (), 'octets split into frames and a rest'),
        Ground('mrt_wire/src/laws.rt', 'law_input_splits_in_one_way', ('',), 'they do so in one way, so the texts are a function of them'),
        Ground('mrt_wire/src/laws.rt', 'law_input_splits_into_records', ('',),
               'and no octets are without one'),
        Ground('bgpdump_tool/src/laws.rt', 'law_one_script', ('one', 'some'), 'likewise a script and its lines'),
        Ground('bgpdump_command_line/src/command_line.rt', 'settings', ('answers',),
               '`-t` gives the `Stamp` of the clauses; that `main` hands it on is tested'),
    ),
    'No line waits: before a read that may wait, both outputs are flushed, if they show what they hold back': (
        Ground(DUMP, 'run_dump', ('flushed',),
               'where a read failed, the outputs hold nothing back. Nothing was flushed after it: a flush may fail, '
               'and by *read_fault* and *write_fault* the run would then have to end in two ways. Any read that '
               'asks the device may fail, so this holds before each of them'),
        Ground(PLAY, 'run_play', ('flushed',), 'likewise'),
        Ground(DUMP, 'run_dump', ('whole_records',), 'and all lines of the records taken were put by then, of devices that show their octets'),
        Ground(PLAY, 'run_play', ('whole_records',), 'likewise'),
        Ground('bgpdump_lines/specs/Flushing.antt', 'LeavesFlushed', (), 'by how the run ended'),
        Ground('mrt_wire/src/source.rt', 'next', ('buffered',),
               'a record that is buffered as a whole is read without a fault of the input, so without asking a '
               'device that may fail'),
        Ground(INPUT, 'take', ('buffered',), 'what an input owes: from its buffer it reads without a fault'),
        Ground(INPUT, 'has_buffered_record', ('',), 'exactly where the buffer holds a whole record'),
        Ground(OUTPUT, 'flush', ('flushed',), 'what an output owes: after an Ok nothing is pending, where it tells what is'),
    ),
    'For every input and every script of up to 1 MiB, even when memory allocation fails': (
        Ground(DUMP, 'run_dump', ('input_sound', 'out_sound', 'err_sound'),
               'its only conditions: no device has failed before. No clause supposes that there is memory'),
        Ground(PLAY, 'run_play', ('input_sound', 'out_sound', 'err_sound'), 'likewise; the program\'s `dump` and `play` have none'),
        Ground(PLAYER, 'play', ('',), '`Player::play` has one: the cursor is below 2^64 - 1'),
    ),
    'One damaged record costs that record': (
        Ground('mrt_wire/src/source.rt', 'next', ('next', 'first'), 'its fault is returned, and the next call reads on'),
        Ground(DUMP, 'run_dump', ('octets',), 'each fault is reported; `run_play` likewise'),
        Ground(RESULTS, 'record_result', (), 'the fault has number and offset of its record'),
        Ground(RESULTS, 'state_after', (), 'the next record begins after the octets that this one states (`Splits`)'),
        Ground('mrt_frames/specs/Record.antt', 'rest_fault', (), 'unless it is cut or too long'),
        Ground(RESULTS, 'index_after', (), 'a damaged peer index leaves the one before'),
        Ground(RESULTS, 'entries_fault', (), 'without one, records of entries are faulty'),
        Ground('bgpdump_lines/specs/Run.antt', 'fault_report', (), 'the report'),
    ),
}


def line_of_clause(lines, start, clause):
    """The line of a clause of the function whose head is at a line, counted from 0; None where it has none."""
    head = re.compile(r' *(?:ensures|requires) %s\{' % re.escape(clause + ' ' if clause else ''))
    end = re.compile(r' *\{\}?$')
    for place in range(start, len(lines)):
        if head.match(lines[place]):
            return place + 1
        if end.match(lines[place]):
            return None
    return None


def lines_of(ground):
    """The lines, from 1, of the clauses, or of the definition; None for one that is not there."""
    lines = (CRATES / ground.file).read_text().split('\n')
    if ground.file.endswith('.antt'):
        head = re.compile(r"(?:(?:abbrev|unfoldable|pub|record|data) )+%s(?: [({].*?[)}])* : " % re.escape(ground.name))
    else:
        head = re.compile(r' *(?:pub )?fn %s\b' % ground.name)
    start = next((place for place, line in enumerate(lines) if head.match(line)), None)
    if start is None:
        return [None]
    return [line_of_clause(lines, start, clause) for clause in ground.clauses] or [start + 1]


def row_of(ground):
    places = lines_of(ground)
    if None in places:
        raise SystemExit('claims: %s has no %s with %s' % (ground.file, ground.name, ', '.join(ground.clauses)))
    named = ', '.join('*%s*' % clause for clause in ground.clauses if clause)
    return '- `%s`%s (`%s:%s`): %s' % (
        ground.name, ' ' + named if named else '', ground.file, ','.join(map(str, places)), ground.says)


def claims():
    """Each claim's first line, and the lines below it."""
    for number, (claim, grounds) in enumerate(CLAIMS.items(), 1):
        yield ['**%d. %s.**' % (number, claim), '', *map(row_of, grounds)]
