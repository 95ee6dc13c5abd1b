"""What a trace says of a boot: the reader of traces for all tools, and one definition each of an action's run, a command, a life of a
process, a wait, a failure, a refused set. `boot_trace.boot` has the way in."""
