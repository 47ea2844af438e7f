"""What tools/claims.py tells beside the tables of calls: each answer that isn't the wanted value with the clauses that
say when it comes, both ways, and what stands after a refusal."""

# A status of a run, when it comes, and the fields of `Promises` of `fs_cli` that say so.
STATUSES = [
    (
        "0",
        "words, files and what the other end gave call for it, no call failed, and memory was there: then the "
        "defined text was written whole",
        "runs complete headline listed checked_file converted announced listened paired generator",
    ),
    (
        "1",
        "only where a call on the output failed in the run, on the files in a command that names one, or on the "
        "wire in `announce`, `listen` and `pair`, or where a file isn't there when its turn comes; in that last "
        "case always 1 or 6",
        "runs causes",
    ),
    (
        "2",
        "exactly where the words are no command; no file is opened then",
        "no_command nothing_done",
    ),
    (
        "3",
        "exactly where the configuration or the rules file isn't accepted, and it is reached",
        "runs causes config_writes_nothing",
    ),
    (
        "4",
        "exactly where the tape has a fault, and it is reached",
        "runs causes tape_writes_nothing",
    ),
    (
        "5",
        "exactly where the capture has a fault, and it is reached; only of `enforce` and `check`, whatever the files tell",
        "runs causes possible",
    ),
    (
        "6",
        "free; what was written is a front of the text, of `enforce` the lines of all packets that it judged, and "
        "over a tape of version 1 nothing",
        "runs memory_writes_nothing memory_keeps_judged",
    ),
    (
        "7",
        "exactly where an input whose turn comes reaches the limit with no fault before it, or what an end of the "
        "wire heard reaches it and closes no session, for a missing family neither; where an agreed hold time has "
        "passed, 8 may come in its place; a survey writes nothing then",
        "runs causes limit_writes_nothing",
    ),
    (
        "8",
        "exactly where the octets of an end close its session, end before it is established, or lack the family "
        "of a rule; beside that only where an agreed hold time has passed",
        "runs causes announced listened paired",
    ),
    (
        "9",
        "exactly where the word of `check` isn't hexadecimal, has a fault, or is no text of a rule, or where its file "
        "isn't accepted",
        "runs causes",
    ),
    (
        "10",
        "exactly where the dump has a fault; only of `convert` and `check`, whatever the files tell",
        "runs causes possible",
    ),
    (
        "1, 3, 6, 7 of `record`",
        "1 only where the configuration isn't there, or a call on it, on the output or on the gate failed; 3 exactly where "
        "it isn't accepted; 6 free; 7 where it is at the limit, or only behind it",
        "possible causes",
    ),
    (
        "1, 3, 6, 7 of `keep`",
        "1 only where the configuration isn't there, or the rules file isn't at first, or a call on them, on the output or "
        "on the gate failed; 3 exactly where the configuration isn't accepted; 6 free; 7 where it is at the limit, or only "
        "where the other end gave as many octets",
        "possible causes",
    ),
]

# An answer of a layer, when it comes, and clauses: crate, call, names.
ANSWERS = [
    (
        "`Failed` of the outside",
        "only where the count of faults rose in the call",
        [
            "fs_outside Files::open_file cause",
            "fs_outside Files::read cause",
            "fs_outside Sink::write cause",
            "fs_outside Wire::open_end cause",
            "fs_outside Wire::read cause",
            "fs_outside Wire::write cause",
            "fs_outside Wire::close cause",
        ],
    ),
    (
        "`open_file` answers false",
        "exactly where no file has the name",
        [
            "fs_outside Files::open_file found",
        ],
    ),
    (
        "`Counted::read` answers `Failed`",
        "only where the count of the files rose in the call",
        [
            "fs_base Counted::read failed",
        ],
    ),
    (
        "`Counted::read` answers `Limit`",
        "exactly where `limit` octets were taken before",
        [
            "fs_base Counted::read limit",
        ],
    ),
    (
        "`Counted::read` answers 0",
        "exactly where the slot is at its end, or there is no room",
        [
            "fs_base Counted::read left",
        ],
    ),
    (
        "no `Prefix`",
        "exactly where the length is above 32 or 128",
        [
            "fs_base Prefix::new none some",
        ],
    ),
    (
        "no peer",
        "exactly where the configuration has none of that number",
        [
            "fs_base Config::peer result",
        ],
    ),
    (
        "`Cut`, `Width` of a list",
        "the first of them, with its place",
        [
            "fs_ops NumList::decode found fault",
            "fs_ops OperatorList::decode_within found fault barred",
            "fs_ops MaskList::decode found fault barred",
        ],
    ),
    (
        "`NotOfFamily`, `Order`, `TooLong`",
        "the first that holds of the components",
        [
            "fs_nlri Rule::new result",
        ],
    ),
    (
        "no destination",
        "exactly where the rule has none, or of IPv6 none with offset 0",
        [
            "fs_nlri Rule::destination shown",
        ],
    ),
    (
        "a fault of `decode`",
        "exactly where no frame stands in front: its reason and its place",
        [
            "fs_nlri decode found fault only",
        ],
    ),
    (
        "a fault of `Feed`",
        "exactly that of the first faulty value, and again at each later call; of `end` where a frame has begun",
        [
            "fs_nlri Feed::feed ok err",
            "fs_nlri Feed::end result",
        ],
    ),
    (
        "`BadLength`",
        "exactly where the octets are no positive multiple of eight",
        [
            "fs_actions from_communities bad_length",
        ],
    ),
    (
        "no marking, redirect or rate",
        "exactly where the list has none there",
        [
            "fs_actions Actions::mark result",
            "fs_actions Actions::redirect result",
            "fs_actions Actions::rate result",
        ],
    ),
    (
        "1/1, 1/2, 1/3",
        "exactly where the octets that no message took up begin so",
        [
            "fs_message Deframer::feed fault exact again",
        ],
    ),
    (
        "`Deframer::feed` takes less than the piece",
        "exactly where a message ends there; of octets that aren't none it takes at least one",
        [
            "fs_message Deframer::feed some exact",
        ],
    ),
    (
        "no message",
        "exactly where none stands whole",
        [
            "fs_message Deframer::message exact",
        ],
    ),
    (
        "2/1, 2/2, 2/3, 2/4, 2/6",
        "exactly the first test of OPEN that fails",
        [
            "fs_message Open::read result",
        ],
    ),
    (
        "3/1, 3/10, 3/9",
        "exactly the first fault of the UPDATE, of an NLRI with reason and place",
        [
            "fs_attrs read_update result",
        ],
    ),
    (
        "`TooLong` of `write_update`",
        "exactly where the message would pass 4096 octets",
        [
            "fs_attrs write_update written",
        ],
    ),
    (
        "`remove`, `withdraw_flow`, `withdraw_unicast` answer false",
        "exactly where the peer doesn't hold the key",
        [
            "fs_unicast Unicast::remove removed held",
            "fs_rules Table::withdraw_flow removed held",
            "fs_rules Table::withdraw_unicast removed held",
        ],
    ),
    (
        "no best route",
        "exactly where none is at the prefix, or at none that covers it",
        [
            "fs_unicast Unicast::best best",
            "fs_unicast Unicast::best_match best",
        ],
    ),
    (
        "a rule isn't valid",
        "exactly the first of the four tests that fails",
        [
            "fs_validate valid validity",
        ],
    ),
    (
        "no rule of that number, none that matches",
        "exactly where the number is past the last, or no rule from there on matches",
        [
            "fs_rules Table::rule rule",
            "fs_rules Table::held_flow held",
            "fs_rules Table::walk result",
            "fs_compile Compiled::first first",
            "fs_compile Compiled::next next",
            "fs_compile Matches::next next",
        ],
    ),
    (
        "no link; `Unread`",
        "exactly the links that aren't listed; exactly the first test that fails",
        [
            "fs_base Link::of result",
            "fs_packet view result",
        ],
    ),
    (
        "a fault or `Limit` of an input",
        "exactly where its octets, or the first `limit` of them, have it; it stays",
        [
            "fs_tape Tape::begin opens",
            "fs_tape Tape::next gives.advances gives.again gives.unread",
            "fs_pcap Capture::begin opens",
            "fs_pcap Capture::next gives.advances gives.again gives.unread",
            "fs_pcapng Ng::begin begins",
            "fs_pcapng Ng::next gives.advances gives.again gives.unread",
            "fs_mrt Dump::begin never",
            "fs_mrt Dump::next gives.advances gives.again gives.unread",
            "cmd_enforce Capture::begin begins",
            "cmd_enforce Capture::next gives.advances gives.again gives.unread",
        ],
    ),
    (
        "`Read` of an input",
        "only where the count of the files rose in the call that first answered it",
        [
            "fs_tape Tape::begin read",
            "fs_tape Tape::next gives.read",
            "fs_pcap Capture::begin read",
            "fs_pcap Capture::next gives.read",
            "fs_pcapng Ng::begin read",
            "fs_pcapng Ng::next gives.read",
            "fs_mrt Dump::next gives.read",
            "cmd_enforce Capture::begin state.read",
            "cmd_enforce Capture::next gives.read",
        ],
    ),
    (
        "an input ends",
        "exactly where it ends where a record would begin",
        [
            "fs_tape Tape::next gives.advances gives.ended",
            "fs_pcap Capture::next gives.advances gives.ended",
            "fs_pcapng Ng::next gives.advances gives.ended",
            "fs_mrt Dump::next gives.advances gives.ended",
            "cmd_enforce Capture::next gives.advances gives.ended",
        ],
    ),
    (
        "a session closes",
        "exactly where its octets close it, or `cease` or `tick` does; it stays, and takes nothing more",
        [
            "fs_session Session::feed closed exact again",
            "fs_session Session::feed_at closed exact again",
            "fs_session Session::tick closed exact again",
            "fs_session Session::cease exact again",
            "fs_session Announcer::feed closed exact again",
            "fs_session Announcer::feed_at closed exact again",
            "fs_session Announcer::tick closed exact again",
        ],
    ),
    (
        "`NoFamily` of a session",
        "of the announcing end alone, exactly where the other end's OPEN lacks the family of a rule to send",
        [
            "fs_session Announcer::feed closed exact",
            "fs_session Announcer::feed_at closed exact",
        ],
    ),
    (
        "no update; no message",
        "exactly where no UPDATE that is taken ends with the call; where it isn't established, or all rules were "
        "said",
        [
            "fs_session Session::feed some exact",
            "fs_session Session::feed_at some exact",
            "fs_session Announcer::next_message exact",
        ],
    ),
    (
        "6/1",
        "exactly where an UPDATE leaves the peer holding more than its limit",
        [
            "fs_desk Desk::octets played replied",
            "fs_rules Table::held_by result",
        ],
    ),
    (
        "a refused configuration or rules file",
        "exactly where it isn't accepted by the definition",
        [
            "fs_conf read_config ok refused",
            "fs_conf read_rules ok refused",
        ],
    ),
    (
        "`Bad`, `TooLong` of a text",
        "exactly where the words are no text of a rule: the least word with which none goes on",
        [
            "fs_text read found exact fault",
        ],
    ),
    (
        "a step of both ends",
        "after want of memory each later one answers so, and changes nothing",
        [
            "fs_speaker Joint::step again err",
            "fs_speaker Joint::taken result",
            "fs_speaker Joint::closed result",
        ],
    ),
    (
        "one rule contains another",
        "exactly by the definition, with the report and without it",
        [
            "fs_shadow report result",
            "fs_shadow confirm result",
            "fs_ranges Spans::within result",
        ],
    ),
]

# A status of a run, what it has written then, and the fields of `Promises` of `fs_cli` that say so.
LEFT = [
    (
        "2",
        "nothing; no file is opened, and neither the wire nor the clock is used",
        "nothing_done",
    ),
    (
        "3",
        "nothing, and neither the wire nor the clock is used",
        "config_writes_nothing",
    ),
    (
        "4",
        "by `enforce` nothing, and its capture isn't opened, where the files tell; by `rules`, `list` and `shadow` the "
        "line of the fault",
        "tape_writes_nothing tape_opens_nothing runs",
    ),
    (
        "6",
        "nothing, but by `enforce` over a tape of version 2, which wrote a front of its text; of `enforce` where the "
        "files tell",
        "memory_writes_nothing runs",
    ),
    (
        "1",
        "a front of its text",
        "runs",
    ),
    (
        "8",
        "the line of how the session ended, and nothing else to the output; by `pair`, a front of the rules to the "
        "wire",
        "announced listened paired",
    ),
    (
        "any other",
        "the whole text that is defined for it",
        "runs",
    ),
    (
        "1, 6, 7 of `record`",
        "the tape of all events but the last, and a front of the last one's records; where the configuration isn't accepted "
        "nothing, and the gate isn't used",
        "records config_writes_nothing stopped_unused",
    ),
    (
        "1, 6, 7 of `keep`",
        "the lines of all events but the last, and a front of the last one's; where the configuration isn't accepted nothing",
        "kept config_writes_nothing stopped_unused",
    ),
]

# A refusal of a layer, what stands then, and clauses: crate, call, names.
STANDS = [
    (
        "`put` or `push` wants memory",
        "the table, the routes or the list is as it was",
        [
            "fs_rules Table::put_flow err",
            "fs_rules Table::put_unicast err",
            "fs_rules Table::put_unicast_telling err",
            "fs_unicast Unicast::put err",
            "fs_unicast Unicast::put_telling err",
            "fs_actions Actions::push err",
        ],
    ),
    (
        "a rule, a list, actions, a text or a part of a line isn't written for want of memory",
        "what it was to be appended to is as it was",
        [
            "fs_nlri encode err",
            "fs_ops OperatorList::encode err",
            "fs_actions Actions::to_communities err",
            "fs_words print err",
            "fs_line append err",
            "fs_line append_decimal err",
            "fs_line append_hex err",
        ],
    ),
    (
        "a message isn't written for want of memory, or as `TooLong`",
        "what it was to be appended to is as it was",
        [
            "fs_message write_open result",
            "fs_message write_update_frame result",
            "fs_message write_notice result",
            "fs_message write_keepalive result",
            "fs_attrs write_update written",
        ],
    ),
    (
        "a fault of `Feed`, or want of memory",
        "the rules before it are appended; each later call answers the same and appends nothing",
        [
            "fs_nlri Feed::feed err",
        ],
    ),
    (
        "a deframer's fault",
        "each later call answers the same, takes nothing and leaves it as it was",
        [
            "fs_message Deframer::feed again",
        ],
    ),
    (
        "a session closes by a fault, by the clock, by `cease`, or for want of memory",
        "the NOTIFICATION of that is appended, for want of memory nothing",
        [
            "fs_session Session::feed exact",
            "fs_session Session::feed_at exact",
            "fs_session Session::tick exact",
            "fs_session Session::cease exact",
            "fs_session Announcer::start exact",
            "fs_session Announcer::feed exact",
            "fs_session Announcer::feed_at exact",
            "fs_session Announcer::tick exact",
            "fs_session Announcer::next_message exact",
        ],
    ),
    (
        "a session has closed",
        "each later call answers how, takes and appends nothing, and leaves it as it was",
        [
            "fs_session Session::feed again",
            "fs_session Session::feed_at again",
            "fs_session Session::tick again",
            "fs_session Session::cease again",
            "fs_session Announcer::start again",
            "fs_session Announcer::feed again",
            "fs_session Announcer::feed_at again",
            "fs_session Announcer::tick again",
            "fs_session Announcer::next_message again",
        ],
    ),
    (
        "a fault, `Limit`, `Read` or the end of an input",
        "each later call answers the same, reads nothing and leaves the reader as it was",
        [
            "fs_tape Tape::next gives.again gives.stays gives.unread",
            "fs_pcap Capture::next gives.again gives.stays gives.unread",
            "fs_pcapng Ng::next gives.again gives.stays gives.unread",
            "fs_mrt Dump::next gives.again gives.stays gives.unread",
            "cmd_enforce Capture::next gives.again gives.stays gives.unread",
        ],
    ),
    (
        "a desk wants memory",
        "the replies are as they were; what sessions and table then hold isn't said, but the table's validities are right for it (its invariant); by `up` the peer is lost",
        [
            "fs_desk Desk::octets err",
            "fs_desk Desk::octets err",
            "fs_desk Desk::tick err",
            "fs_desk Desk::tick err",
            "fs_desk Desk::up lost",
            "fs_desk Desk::up lost",
        ],
    ),
    (
        "a step of both ends wants memory",
        "each later one answers so, and changes nothing",
        [
            "fs_speaker Joint::step err again",
        ],
    ),
    (
        "a write fails",
        "a front of what was to go is written; of an `Output` nothing is pending any more",
        [
            "fs_base write_all err",
            "fs_line Output::flush err empty",
        ],
    ),
]
