"""The journal of full-desk.session.py."""
for k in range(1, 4097):
    print('{"caller":"ann","command":%d,"done":[["entered","h12#%d","h12"]],"entry":%d}' % (k, k, k))
print('{"caller":"ann","command":4097,"entry":4097,"refused":["DeskFull"]}')
print('{"caller":"ann","command":4098,"done":[["entered","h12#4097","h12"],'
      '["withdrawn","h12#4097","0.1"]],"entry":4098}')
print('{"caller":"bob","command":1,"done":[["entered","h12#4098","h12"],'
      '["leg","h12#4098","h12#4096","0.1","10.01",[]],["leg","h12#4098","h12#1","0.1","10.00",[]]],"entry":4099}')
print('{"caller":"ann","command":4099,"done":[["entered","h12#4099","h12"]],"entry":4100}')
