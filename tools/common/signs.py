"""The signs of textbooks for the connectives."""

# what textbooks write, and what the workbench does
OURS = {
    "□": "box",
    "[]": "box",
    "◇": "dia",
    "<>": "dia",
    "→": "->",
    "↔": "<->",
    "∧": "&",
    "∨": "v",
    "¬": "~",
    "⊤": "true",
    "⊥": "false",
}
