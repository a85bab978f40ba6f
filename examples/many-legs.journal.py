"""The journal of many-legs.session.py."""
for k in range(1, 4097):
    print('{"caller":"ann","command":%d,"done":[["entered","h12#%d","h12"]],"entry":%d}' % (k, k, k))
legs = "".join(',["leg","h12#4097","h12#%d","0.1","10.00",[]]' % k for k in range(1, 4097))
print('{"caller":"bob","command":1,"done":[["entered","h12#4097","h12"]%s],"entry":4097}' % legs)
