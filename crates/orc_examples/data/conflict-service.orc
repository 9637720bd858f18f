# A service that was deleted and made anew since a caller's snapshot is a conflict for that caller's call on it.
orc 1
device r1 plain
script

# Anna makes the service, and Ben begins to work on what there is now.
call anna 1
literal uplink
write r1 /if:port[ge-0]/mtu = 9000
end
settle
begin ben

# Anna deletes it, and makes another one of the same name.
call anna 2
delete uplink
end
settle
call anna 3
literal uplink
write r1 /if:port[ge-0]/mtu = 1400
end
settle

# Ben's deletion is meant for the first one, so it is refused: entry 2 took away what it was planned on. Sent again, it is
# planned on what there is by then.
call ben 1
delete uplink
end
settle
call ben 1
delete uplink
end
settle
show r1
