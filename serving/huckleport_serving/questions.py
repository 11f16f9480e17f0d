"""Lines that change nothing, whatever their replies are. They are answered, and stay out of the log."""

from __future__ import annotations

import re

NAMES = (
    "node|children|index|length|root|contains|isEqual|comparePosition|textContent|tree|data|substringData|getAttribute|hasAttribute|attributeNames"
    "|range|compareBoundaryPoints|comparePoint|isPointInRange|intersectsNode|commonAncestor|staticRange|rangeText|iterator|walker|pending"
)
"""The commands that only read. Any other line may change its document, as far as serving knows."""

QUESTIONS = rf'^[ \t\r]*\[[ \t\r]*"({NAMES})"[ \t\r]*[],]'
"""Fits a line that begins as such a command, as Python and PostgreSQL read it. If it is a wrong line, its refusal changes nothing either."""

is_question = re.compile(QUESTIONS.encode()).match
