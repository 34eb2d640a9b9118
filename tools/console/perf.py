"""How long the console takes for thousands of lines with m = r = 64 and L = 128: at the top, once rt run has built it."""
import subprocess, random, time
BIN='crates/console/out/console'
rnd=random.Random(5)
def run(lines):
    t=time.time(); o=subprocess.run([BIN],input='\n'.join(lines).encode()+b'\n',capture_output=True); return o.stdout.decode().split('\n'), time.time()-t, o.returncode
for f,q,w in (('byte',256,1),('prime',257,2)):
    rows=[[rnd.randrange(q) for _ in range(128)] for _ in range(64)]
    s=[f'> standard {f} 64 64 128','> sheet 8192 7']+['> lay %d %s'%(j,''.join('%04x'%x for x in rows[j])) for j in range(64)]+['> close']+[f'> cut {f} 1 1 {i} {20+128*w} 0' for i in range(128)]+['> apart']
    o,t,rc=run(s*10); print(f,'cut lines',len(s)*10,'%.2fs'%t,rc, o[0])
    pk=[o[67+i].split(' ')[3] for i in range(128)]
    order=list(range(128)); rnd.shuffle(order)
    s2=[f'> standard {f} 64 64 128','> open 1 1']+[f'> offer {f} {pk[i]}' for i in order]
    s3=s2+[f'> offer {f} {pk[rnd.randrange(128)]}' for i in range(3000)]+[f'> read {f} 8192 9']*500+[f'> rebuild {f} {i%128} {20+128*w} 1' for i in range(1000)]+['> missing']*100
    o,t,rc=run(s3); print('lines',len(s3),'%.2fs'%t,rc); 
    want='= ok '+''.join('%04x'%x for r in rows for x in r)
    print(o[2:5],o[128:131],sum(x==want for x in o), sum(x.startswith('= fault receiver 12') for x in o))
    s4=[f'> pack {"41"*8192} 8192 3']*1000
    o,t,rc=run([f'> standard {f} 64 64 128']+s4); print('pack',len(s4),'%.2fs'%t,o[1][:20])
