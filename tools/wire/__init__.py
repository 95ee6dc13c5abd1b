"""The messages of init's property socket."""
