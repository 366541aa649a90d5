"""The tests of the Python module and its command line. From the root of the repository, once ./build-lib has been run:

    python3 -W error -m unittest discover -s bindings/python
"""
