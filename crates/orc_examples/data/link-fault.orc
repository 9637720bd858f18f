# A link fails after the commit took effect: the device is out of step until it is reconciled.
orc 1
device r1 plain
script
fault r1 CommitConfirmed after
call al 1
literal a
write r1 /if:mtu = 9
end
settle
show r1
call al 2
literal a
write r1 /if:mtu = 9
end
settle
reconcile
call al 3
literal a
write r1 /if:mtu = 9
end
settle
show r1
