"""Pictures of polygons with answers, as SVG."""
from ..answers.answered import Answer
from .picture import MOST, of_script, svg

__all__ = ['MOST', 'Answer', 'of_script', 'svg']
