"""The worlds of a scenario, as tools/explore goes through them, by the model of the kernel in meaning.

It is unproved. By it explore knows which processes may go on, and which orders lead to one world. The lab's own
search has to have the same ends, and each schedule that explore reports was run by the lab, whose trace is compared
with the model's line by line.
"""
