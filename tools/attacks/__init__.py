"""Attacks on the built program, a module for each kind; hostile.py runs them."""
