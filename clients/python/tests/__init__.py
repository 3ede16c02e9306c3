"""Tests of the client, which `gate/check-client` runs beside a program."""
