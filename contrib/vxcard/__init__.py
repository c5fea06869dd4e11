"""The parts of `vx_card.py`: what each of them is stands in its first line."""
