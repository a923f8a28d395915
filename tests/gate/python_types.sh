# Checks the types of tools/ and tests/ with mypy.
python_types() { told "$room/types" tests/gate/python_types.py; }
