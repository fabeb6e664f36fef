"""Checks of the documents that make no build; tools/docs runs them."""
