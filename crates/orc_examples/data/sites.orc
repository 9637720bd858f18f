# Plain data of an operator: sites, and what belongs to them. `set` brings the entries on its way; `unset` takes an entry
# with all below it, or a leaf alone. Keys and texts are kept in canonical form.
orc 1
yang 7
module net { namespace "urn:example:net"; prefix n; import orc { prefix o; }
  list site { key name; leaf name { type string; } leaf asn { type uint32; }
    container link { leaf mtu { type uint16 { range "68..9192"; } } leaf-list member { type string; } }
    list vlan { key id; leaf id { type uint16 { range "1..4094"; } } leaf name { type string; } } }
  leaf router { type leafref { path "/o:device/o:name"; } }
  leaf note { type string; }
}
datamodel net
data /net:site[ber]/asn = 065001
data /net:site[ber]/vlan[0020]/name = office
data /net:site[ber]/vlan[30]
data /net:site[ams]
# (of two texts for one leaf the later one counts)
data /net:site[ams]/asn = 1
data /net:site[ams]/asn = 65002
device r1 plain
device r2 plain
script
data

call anna 1
set /net:site[fra]/vlan[+7]/name = lab
set /net:site[ber]/link/member[ge-0/0/1]
set /net:site[ber]/asn = 0065003
set /net:note = 
set /net:router = r2
end
settle
data

# A leaf goes and its entry stays; an entry goes with all below it; what isn't there is gone already.
call ben 1
unset /net:site[fra]/vlan[07]/name
unset /net:site[ber]/vlan[20]
unset /net:site[ber]/link/member[ge-0/0/9]
unset /net:site[nowhere]
unset /net:site[ams]/link/mtu
unset /net:note
end
settle
call carla 1
unset /net:site[nowhere]/vlan[1]/name
end
settle
data

# Actions are done in order. An entry that is there keeps what is below it.
call carla 2
set /net:site[osl]/asn = 1
unset /net:site[osl]
unset /net:site[par]
set /net:site[par]/vlan[1]
set /net:site[par]
end
settle
call carla 3
unset /net:site[ber]
end
settle
data

# Sent again: equal actions in another spelling, and the same actions in another order.
call ben 1
unset /net:site[fra]/vlan[7]/name
unset /net:site[ber]/vlan[020]
unset /net:site[ber]/link/member[ge-0/0/9]
unset /net:site[nowhere]
unset /net:site[ams]/link/mtu
unset /net:note
end
settle
call carla 2
unset /net:site[osl]
set /net:site[osl]/asn = 1
unset /net:site[par]
set /net:site[par]/vlan[1]
set /net:site[par]
end
settle
history
show r1
