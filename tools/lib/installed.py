"""What is installed of tools/ beside the program: two commands, and what they need, in a folder of its own."""

FOLDER = "share/krbrelay/scripts"       # below the prefix
COMMANDS = {"krbrelay-check-job": "tools/check_job", "krbrelay-picture": "tools/picture"}
FILES = (*COMMANDS.values(), "tables/job_keys.toml", *(f"tools/lib/{it}.py" for it in (
    "__init__", "job_check", "log_lines", "options", "toml_reader", "build/__init__", "build/building", "picture/__init__",
    "picture/relayed", "picture/svg")))
