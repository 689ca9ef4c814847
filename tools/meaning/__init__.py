"""What scenarios, programs and traces mean, for the programs in tools/: nothing of it is proved.

It reads images, texts, scenarios and traces, goes along with a run by a model of its own, and has the
verifier's rules once more. The lab itself answers what counts; here its answers get a meaning.
"""
