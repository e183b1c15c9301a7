"""Writes the stick of document 01's sample, volume "A" with an empty root, to standard output: the lister's input in the gate
(crates/lister/stdin). Nine blocks of 4,096 bytes: container superblock, checkpoint map, checkpoint, the container's object map and its
tree, the volume, its object map and its tree, the file-system tree."""
import sys
import struct
BS=4096
def fletcher(b):
    M=2**32-1
    s1=s2=0
    for i in range(8,len(b),4):
        w=struct.unpack_from('<I',b,i)[0]
        s1=(s1+w)%M; s2=(s2+s1)%M
    c1=M-(s1+s2)%M; c2=M-(s1+c1)%M
    return struct.pack('<II',c1,c2)
def obj(oid,xid,typ,sub,body):
    b=bytearray(BS)
    struct.pack_into('<QQQII',b,0,0,oid,xid,typ,sub)
    for off,fmt,*vals in body: struct.pack_into('<'+fmt,b,off,*vals)
    b[0:8]=fletcher(b)
    return bytes(b)
XID=2
def nxsb(): 
    return obj(1,XID,0x80000001,0,[(32,'4s',b'NXSB'),(36,'I',BS),(40,'Q',9),(64,'Q',2),(104,'II',2,0),(112,'Q',1),(136,'II',0,2),(160,'Q',3),(180,'I',1),(184,'Q',1026)])
def cpmap(): return obj(1,XID,0x4000000c,0,[(32,'II',1,0)])
def omap(oid,tree): return obj(oid,XID,0x4000000b,0,[(32,'II',0,0),(40,'I',0x40000002),(44,'I',0x40000002),(48,'Q',tree)])
def btree_info(b,flags,ks,vs,count):
    struct.pack_into('<IIIIIIQQ',b,BS-40,flags,BS,ks,vs,ks if ks else 8,vs if vs else 8,count,1)
def node(oid,typ,sub,flags,recs,fixed,infoflags):
    b=bytearray(BS)
    struct.pack_into('<QQQII',b,0,0,oid,XID,typ,sub)
    n=len(recs)
    tocent=4 if fixed else 8
    tablen=max(64,n*tocent)
    struct.pack_into('<HHI',b,32,flags|(4 if fixed else 0),0,n)
    struct.pack_into('<HH',b,40,0,tablen)
    keys=56+tablen; end=BS-40
    ko=0; vo=0
    for i,(k,v) in enumerate(recs):
        b[keys+ko:keys+ko+len(k)]=k
        vo+=len(v)
        b[end-vo:end-vo+len(v)]=v
        if fixed: struct.pack_into('<HH',b,56+i*4,ko,vo)
        else: struct.pack_into('<HHHH',b,56+i*8,ko,len(k),vo,len(v))
        ko+=len(k)
    btree_info(b,infoflags,16 if fixed else 0,16 if fixed else 0,n)
    b[0:8]=fletcher(b)
    return bytes(b)
def okey(oid): return struct.pack('<QQ',oid,XID)
def oval(p): return struct.pack('<IIQ',0,BS,p)
inode=struct.pack('<QQQQQQQI',1,2,0,0,0,0,0,0)+struct.pack('<I',0)*2+struct.pack('<III',0,0,0)+struct.pack('<HH',16877,0)+struct.pack('<Q',0)
assert len(inode)==92,len(inode)
fskey=struct.pack('<Q',2|(3<<60))
apsb=obj(1026,XID,0x0000000d,0,[(32,'4s',b'APSB'),(56,'Q',1),(128,'Q',6),(136,'Q',1028),(264,'Q',1),(704,'1s',b'A')])
blocks=[nxsb(),cpmap(),nxsb(),omap(3,4),
 node(4,0x40000002,0x0b,3,[(okey(1026),oval(5))],True,0x10|0x0),
 apsb, omap(6,7),
 node(7,0x40000002,0x0b,3,[(okey(1028),oval(8))],True,0x10),
 node(1028,0x00000002,0x0e,3,[(fskey,inode)],False,0)]
sys.stdout.buffer.write(b''.join(blocks))
