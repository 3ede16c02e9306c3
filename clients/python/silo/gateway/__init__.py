"""A gateway: many processes talk to one silo, each tenant by sockets of its own (docs/gateway.md).

    python -m silo.gateway FOLDER red:1000:4 blue:1000:4

runs `silo answer` over these tenants and listens at FOLDER/red.sock and FOLDER/blue.sock. It is Python beside the program that is
proved, and nothing is proved of it: it says who asks, and passes lines on.
"""
