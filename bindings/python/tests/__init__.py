"""The tests of the package. Their memory is bounded: what takes more and more ends with an error."""

import resource

MOST_MEMORY = 2 << 30

# Programs that a test starts have the same bound.
_hard = resource.getrlimit(resource.RLIMIT_AS)[1]
_bound = MOST_MEMORY if _hard == resource.RLIM_INFINITY else min(MOST_MEMORY, _hard)
resource.setrlimit(resource.RLIMIT_AS, (_bound, _hard))
