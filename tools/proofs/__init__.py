"""The parts of tools/prove.py, in the order of their use:

shapes     what rt says of a function: its steps, its needs, and where each need stands
terms      a fact by its name in an answer, by its position in a proof file
answers    the .ans files: reading, showing, the answer that a need gets
layout     where proof files and answers stand in the repository
extract    answers from proof files
write      proof files from answers
carry      answers for one shape of the code, made answers for another
check      do the proof files that stand there come from the answers; are the names of cycles short enough
"""
