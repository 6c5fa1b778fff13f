"""A second, plain computation of what eve-tpcc answers: databases, steps, footprints, levels, paths, hashes and tokens. It is written from
docs/FORMATS.md and docs/DEFINITIONS.md alone, takes sound databases, and is slow."""
