"""The language of `osb-replay network`, once more: by docs/ and over the models of checks/binding."""
