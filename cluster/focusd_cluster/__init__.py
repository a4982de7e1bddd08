"""A bill that one warehouse can't hold, in many: shards, which workers of dask.distributed fill and ask, and one exact report.

docs/CLUSTER.md says how a shard is chosen, and what survives which failure.
"""
