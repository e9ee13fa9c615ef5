"""Captures of a serial RapidIO link, from the forms in which tools write them.

`forms` names the readers. Each of them gives samples: what one clock brought, in the order in which
it came. `output` writes their characters, and the place and time of each. `times`, `pieces` and
`pairs` work on what was written.
"""
