"""The tests. A module names another from the top of the tree (`from tests.model import rules`); tools/launch runs the commands."""
