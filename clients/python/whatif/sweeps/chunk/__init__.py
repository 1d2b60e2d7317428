"""A chunk of sets, run by one process of the program: bytes in, bytes out.

It needs nothing but the standard library, and no other module of this package. So any engine can carry it to where it runs: a pool of
processes, a scheduler, a batch job. Dask takes these modules by value to workers that don't have them; what cloudpickle 2 can't carry so
isn't used in them: NamedTuple and lru_cache.
"""
