# Edits of a base stand in the journal, so a controller that comes up again knows them, and who writes what.
orc 1
device r1 plain
device r2 plain
base r1 /if:port[e0]/mtu = 1500
script
call al 1
literal a
write r1 /if:port[e0]/mtu = 9000
end
settle
call op 1
base r1 /if:port[e0]/mtu = 1400
base r2 /if:desc = spare
end
settle

# A refused call edits nothing.
call al 2
base r1 /if:port[e0]/mtu = 1
literal b
write r1 /if:port[e0]/mtu = 1600
end
settle
meta r1 /if:port[e0]/mtu
show r2

# While the controller is down nobody can say who writes.
stop
meta r1 /if:port[e0]/mtu
call op 2
unbase r2 /if:desc
end
settle
recover
reconcile
meta r1 /if:port[e0]/mtu

# A call that is sent again is not done twice; other actions have another number.
call op 1
base r1 /if:port[e0]/mtu = 1400
base r2 /if:desc = spare
end
settle
call op 1
base r1 /if:port[e0]/mtu = 1400
end
settle

# The controller stops as the decision is written: the call is in the journal where its gate is open.
stop 7 1
call op 2
unbase r2 /if:desc
unbase r1 /if:port[e1]
end
settle
recover
reconcile
show r2
call al 3
delete a
end
settle
show r1
meta r1 /if:port[e0]/mtu
history
