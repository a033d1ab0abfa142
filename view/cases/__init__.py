"""What is tried in the browser. Each case takes the check and the browser."""

from cases import folding, looking, looks, marking, paper, printing, safety

ALL = [case for part in (looking, folding, marking, paper, printing, looks, safety) for case in part.CASES]
