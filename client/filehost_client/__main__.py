"""Lets the library be called as the command `site`: python3 -m filehost_client."""

from .main import main

if __name__ == "__main__":
    main()
