"""A page of a search: one HTML file, without scripts and without anything from elsewhere."""

from .page import Asked, page

__all__ = ["Asked", "page"]
