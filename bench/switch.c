#include <stdint.h>
#include <stdio.h>
#include <string.h>
#include <time.h>
struct slot { uint8_t op, dst, src; int16_t off; int32_t imm; };
static uint64_t run(const struct slot *p, unsigned n, const uint8_t *ctx) {
  uint64_t r[10]; memset(r, 0, sizeof r); unsigned at = 0;
  while (at < n) {
    const struct slot *s = &p[at++];
    switch (s->op) {
#define ALU(code, e64, e32) \
    case code*16+7: { uint64_t a=r[s->dst], b=(int64_t)s->imm; r[s->dst]=(e64); break; } \
    case code*16+15: { uint64_t a=r[s->dst], b=r[s->src]; r[s->dst]=(e64); break; } \
    case code*16+4: { uint32_t a=r[s->dst], b=s->imm; r[s->dst]=(uint32_t)(e32); break; } \
    case code*16+12: { uint32_t a=r[s->dst], b=r[s->src]; r[s->dst]=(uint32_t)(e32); break; }
    ALU(0, a+b, a+b) ALU(1, a-b, a-b) ALU(2, a*b, a*b) ALU(3, b?a/b:0, b?a/b:0) ALU(4, a|b, a|b) ALU(5, a&b, a&b)
    ALU(6, a<<(b&63), a<<(b&31)) ALU(7, a>>(b&63), a>>(b&31)) ALU(9, b?a%b:a, b?a%b:a) ALU(10, a^b, a^b) ALU(11, b, b)
    ALU(12, (uint64_t)((int64_t)a>>(b&63)), (uint32_t)((int32_t)a>>(b&31)))
    case 0x87: r[s->dst]=-r[s->dst]; break; case 0x84: r[s->dst]=(uint32_t)-(uint32_t)r[s->dst]; break;
#define LD(code, T) case code: { uint64_t x=r[s->src]+(int64_t)s->off; T v=0; if (x<=40-sizeof(T)) memcpy(&v, ctx+x, sizeof v); r[s->dst]=v; break; }
    LD(0x71,uint8_t) LD(0x69,uint16_t) LD(0x61,uint32_t) LD(0x79,uint64_t)
    case 0x18: r[s->dst]=(uint32_t)s->imm|(uint64_t)(uint32_t)p[at].imm<<32; at++; break;
    case 0x05: at+=s->off; break; case 0x06: at+=s->imm; break;
#define J(code, c64, c32) \
    case code*16+5: { uint64_t a=r[s->dst], b=(int64_t)s->imm; if (c64) at+=s->off; break; } \
    case code*16+13: { uint64_t a=r[s->dst], b=r[s->src]; if (c64) at+=s->off; break; } \
    case code*16+6: { uint32_t a=r[s->dst], b=s->imm; if (c32) at+=s->off; break; } \
    case code*16+14: { uint32_t a=r[s->dst], b=r[s->src]; if (c32) at+=s->off; break; }
    J(1,a==b,a==b) J(2,a>b,a>b) J(3,a>=b,a>=b) J(4,a&b,a&b) J(5,a!=b,a!=b) J(6,(int64_t)a>(int64_t)b,(int32_t)a>(int32_t)b)
    J(7,(int64_t)a>=(int64_t)b,(int32_t)a>=(int32_t)b) J(10,a<b,a<b) J(11,a<=b,a<=b) J(12,(int64_t)a<(int64_t)b,(int32_t)a<(int32_t)b) J(13,(int64_t)a<=(int64_t)b,(int32_t)a<=(int32_t)b)
    case 0x95: return r[0];
    default: return 0;
    }
  }
  return 0;
}
static void dec(struct slot *o, uint64_t w) { uint8_t b[8]; for (int i=0;i<8;i++) b[i]=w>>(56-8*i);
  o->op=b[0]; o->dst=b[1]&15; o->src=b[1]>>4; memcpy(&o->off,b+2,2); memcpy(&o->imm,b+4,4); }
static double now(void){struct timespec t; clock_gettime(CLOCK_MONOTONIC,&t); return t.tv_sec*1e3+t.tv_nsec/1e6;}
int main(int argc, char **argv) {
  struct slot lp[512], sp[6]; dec(&lp[0],0xb700000001000000); dec(&lp[1],0xb702000003000000);
  uint64_t k[4]={0x0f20000000000000,0xa70000004d000000,0x2700000003000000,0x1f02000000000000};
  for (int i=0;i<509;i++) dec(&lp[2+i],k[i%4]); dec(&lp[511],0x9500000000000000);
  uint64_t q[6]={0x6112000000000000,0x6111040000000000,0xb700000001000000,0x1d21010000000000,0xb700000000000000,0x9500000000000000};
  for (int i=0;i<6;i++) dec(&sp[i],q[i]);
  uint8_t ctx[40]={0}; uint64_t s=0; double a=now();
  for (uint32_t i=0;i<200000;i++){ctx[0]=i%3; s+=run(lp,512+(argc>9),ctx);} printf("long %llu\n",(unsigned long long)s); double b=now(); s=0;
  for (uint32_t i=0;i<20000000;i++){ctx[0]=i%3; s+=run(sp,6+(argc>9),ctx);} printf("socket %llu\n",(unsigned long long)s); double c=now();
  printf("ms %.0f %.0f\n", b-a, c-b); return 0; }
