"""The environment in which git works on the repository of a folder, wherever the tool runs."""
import os


def without_git() -> dict[str, str]:
    """This process's, without what git sets for a hook: there GIT_DIR names the hook's repository."""
    return {name: value for name, value in os.environ.items() if not name.startswith("GIT_")}
