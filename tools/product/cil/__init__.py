"""The policy as text: the files of CIL that a device's init compiles, and what they say of who may set a property."""
