# A customer's uplink moves from one router to another one, and the controller stops within each change.

orc 1
device old plain
device new plain

base old /acl:list[customers]/rule[10]/permit = 203.0.113.0/24
base new /acl:list[customers]/rule[10]/permit = 203.0.113.0/24

script

call ops 1
literal uplink-at-old
write old /if:interface[et-0/0/0]/description = Hooli, circuit 4711
write old /if:interface[et-0/0/0]/ipv4[203.0.113.1/30]
write old /acl:list[customers]/rule[20]/permit = 2001:db8:4711::/48
end
settle

# It stops before the deletion is decided, so that is not in the history, and is sent again.
stop 6 0
call ops 2
delete uplink-at-old
end
settle
call ops 3
literal uplink-at-new
end
settle
recover
reconcile
show old
call ops 2
delete uplink-at-old
end
settle

# It stops after the decision: the new uplink is there, and its call need not be sent again.
stop 8 1
call ops 3
literal uplink-at-new
write new /if:interface[xe0]/description = Hooli, circuit 4711
write new /if:interface[xe0]/ipv4[203.0.113.1/30]
write new /acl:list[customers]/rule[20]/permit = 2001:db8:4711::/48
end
settle
recover
reconcile
call ops 3
literal uplink-at-new
write new /if:interface[xe0]/description = Hooli, circuit 4711
write new /if:interface[xe0]/ipv4[203.0.113.1/30]
write new /acl:list[customers]/rule[20]/permit = 2001:db8:4711::/48
end
settle
show old
show new
