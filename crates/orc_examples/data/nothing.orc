# A script without steps prints nothing.
orc 1
device r1 plain
script
