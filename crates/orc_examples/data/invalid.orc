# Calls whose data would break a rule of the schema: the least path, and there the first rule. The data is looked at
# after all actions of a call, and a refused call changes nothing.
orc 1
yang 11
module net { namespace "urn:example:net"; prefix n; import orc { prefix o; }
  list site { key name; max-elements 2; leaf name { type string; }
    leaf asn { type uint32; mandatory true; }
    leaf tier { type string; default std; }
    container link { leaf-list member { type string; min-elements 1; max-elements 2; } }
    leaf router { type leafref { path "/o:device/o:name"; } }
  }
  list peer { key router; leaf router { type leafref { path "/o:device/o:name"; } } }
  leaf home { type leafref { path "/n:site/n:name"; } }
  leaf tier { type leafref { path "/n:site/n:tier"; } }
}
datamodel net
device r1 plain
device r2 plain
data /net:site[ams]/asn = 65001
data /net:site[ams]/link/member[ge1]
data /net:site[ber]/asn = 65002
data /net:site[ber]/link/member[ge2]
data /net:home = ams
script

# A mandatory leaf goes; the last value of a leaf-list; a value too many; an entry too many.
call al 1
unset /net:site[ams]/asn
end
settle
call al 2
unset /net:site[ber]/link/member[ge2]
end
settle
call al 3
set /net:site[ber]/link/member[x]
set /net:site[ber]/link/member[y]
end
settle
call al 4
set /net:site[cph]/asn = 65003
set /net:site[cph]/link/member[ge3]
end
settle
# (without a mandatory leaf and a value too, but the list's path is less)
call al 5
set /net:site[cph]
end
settle

# A leafref whose entry goes; one that names none; one to the devices; a key that is one.
call al 6
unset /net:site[ams]
end
settle
call al 7
set /net:home = cph
end
settle
call al 8
set /net:site[ams]/router = r9
end
settle
call al 9
set /net:peer[r9]
end
settle

# A default that is in force counts as a text of its leaf, and no longer where each site has one of its own.
call al 10
set /net:tier = gold
end
settle
call al 11
set /net:tier = std
end
settle
call al 12
set /net:site[ams]/tier = gold
set /net:site[ber]/tier = gold
end
settle
call al 13
set /net:site[ams]/tier = gold
set /net:site[ber]/tier = gold
set /net:tier = gold
end
settle

# Of several the least path counts, whatever the order of the actions.
call al 14
unset /net:site[ber]/asn
set /net:home = zrh
end
settle
call al 15
unset /net:site[ams]/link/member[ge1]
unset /net:site[ams]/asn
end
settle

# What one action breaks another one may mend.
call al 16
set /net:home = cph
set /net:site[cph]/asn = 65003
set /net:site[cph]/link/member[ge3]
unset /net:site[ber]
end
settle
call al 17
unset /net:site[ams]/asn
set /net:site[ams]/asn = 65009
end
settle
call al 18
set /net:site[ams]/router = r2
set /net:peer[r1]
end
settle
call al 19
set /net:site[ams]/tier = std
set /net:home = zrh
end
settle
data

# A number that was refused is free.
call al 1
unset /net:peer[r1]
end
settle
