"""The tools of `./ficus`, and the module of each. It has `add`, which adds its words to a parser, and `run`, which does it
and gives a status."""
TOOLS = {"start": "start", "join": "join", "sync": "sync", "status": "status", "shell": "shell", "echo": "echo",
         "import": "importing", "export": "exporting", "settle": "settling", "picture": "picture", "release": "release"}
# What another machine calls, and nobody else.
SERVE = {"serve": "serve"}
