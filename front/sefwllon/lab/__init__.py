"""Many instances and many machines: problems made from numbers, many runs, pictures of them, one problem shared out.

Nothing here is proved: each run is one of the proved programs, and what is told of it is what that program printed.
"""
