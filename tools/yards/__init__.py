"""Yards for planners: their text, their yard files, what a route program's output means, drawings. See tools/yard."""
