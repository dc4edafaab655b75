"""What stands on which page, and in which order."""

# The crates with a page, lower ones first.
CRATES = ["piper", "piper_lines", "piper_futures", "piper_duplex", "piper_transfer",
          "piper_tokio", "piper_ring", "piper_machine"]
# Of `piper`: what stands where. Items in none of these sections come before the last.
SECTIONS = {
    "Open a pipe": ["pipe", "pipe_with_seed", "DEFAULT_SEED"],
    "The handles": ["Reader", "Writer"],
    "Errors": ["OutOfMemory", "PipeError", "Inner"],
    "Copies, and traits of readers and writers": ["poll_copy", "Copied", "AsyncRead", "AsyncBufRead",
                                                  "AsyncWrite"],
    "Sources and destinations of fills and drains": [
        "ReadLike", "WriteLike", "ReadBytes", "WriteBytes", "StdReader", "StdWriter", "StdRead",
        "StdWrite"],
    "Calls for proofs": ["FinishedReader", "FinishedWriter"],
}
# A page has at most so many bytes. The items and sections of a crate that have a page of their own,
# by its title, whose last word is in the page's name.
MOST = 40_000
PARTS = {
    "piper": {
        "the reader": ["Reader"],
        "the writer": ["Writer"],
        "copies and traits": ["Copies, and traits of readers and writers",
                              "Sources and destinations of fills and drains"],
        "calls for proofs": ["Calls for proofs"],
    },
    "piper_lines": {
        "lines": ["LineAnswer", "Lines", "WriteLine"],
        "frames": ["BodyTooLong", "ByteOrder", "FrameAnswer", "FrameHeader", "Frames", "LengthBytes",
                   "WriteFrame"],
    },
    "piper_futures": {
        "sinks": ["FrameSink", "LineSink", "WriteSink", "PieceSink", "Framing"],
        "streams": ["FrameStream", "LineStream"],
        "functions": ["Functions"],
        "traits and types": ["Types", "Traits"],
    },
    "piper_duplex": {"the ends": ["End"]},
    "piper_ring": {
        "the reader": ["ReadEnd", "ReadSide"],
        "the writer": ["WriteEnd", "WriteSide"],
        "slots": ["LeftWakers", "ReadRegistrations", "Registrations", "Side", "SlotEnd",
                  "WriteRegistrations"],
    },
    "piper_machine": {"the machine": ["Machine"]},
}
# The use of a type from first to last, since its calls need one another: a file, and functions of it.
WHOLE = {
    "Reader": ("crates/tests_pipe/src/examples/ends.rt", "poll_close", "how_pipes_begin_and_end"),
    "Writer": ("crates/tests_pipe/src/examples/ends.rt", "poll_close", "how_pipes_begin_and_end"),
    "Lines": ("crates/tests_pipe/src/examples/lines.rt", "poll_line", "lines_are_written_and_read"),
    "Frames": ("crates/tests_pipe/src/examples/frames.rt", "poll_frame", "frames_are_written_and_read"),
    "End": ("crates/tests_pipe/src/examples/duplex.rt", "halves", "bytes_go_both_ways"),
    "LineStream": ("crates/tests_above/src/futures_and_streams/owning.rt", "lines_of_a_sink_come_out_of_a_stream_in_order"),
    "PieceSink": ("crates/tests_above/src/futures_and_streams/owning.rt", "lines_of_a_sink_come_out_of_a_stream_in_order"),
    "FrameStream": ("crates/tests_above/src/futures_and_streams/owning.rt", "takes_with_another_limit",
                    "frames_of_a_sink_come_out_of_a_stream_up_to_one_too_long"),
    "CompatReader": ("crates/tests_above/src/over_tokio/codecs.rt", "pass_line", "lines_pass_between_two_tasks"),
    "CompatWriter": ("crates/tests_above/src/over_tokio/codecs.rt", "pass_line", "lines_pass_between_two_tasks"),
    "CompatEnd": ("crates/tests_above/src/over_tokio/codecs.rt", "echo", "ask", "frames_pass_both_ways_between_two_threads"),
    "ReadEnd": ("crates/tests_pipe/src/ring/acts.rt", "ring_of", "receive_due"),
    "WriteEnd": ("crates/tests_pipe/src/ring/acts.rt", "ring_of", "send_due"),
    "Ready": ("crates/piper_transfer/src/both_sides.rt", "transfer"),
}
