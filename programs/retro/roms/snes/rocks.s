; The SNES game (LoROM, 32 KB): two ships by two pads, shots, falling rocks, a random number generator, scores. ca65, 65816.
.p816
.smart
.feature labels_without_colons

ROCKS = 24
SHOTS = 8

.zeropage
seed:   .res 2
frames: .res 2
ready:  .res 2
pad:    .res 4          ; two words, as the console reads them
shipx:  .res 4
shipy:  .res 4
reload: .res 4
score:  .res 4
next:   .res 2
tmp:    .res 2
who:    .res 2
shotx:  .res 2*SHOTS
shoty:  .res 2*SHOTS    ; 0: none
rockx:  .res 2*ROCKS
rocky:  .res 2*ROCKS    ; 0: none

OAM = $0300             ; 544 bytes

.segment "CODE"
reset:
    sei
    clc
    xce
    rep #$38
    ldx #$1fff
    txs
    lda #0
    tcd
    sep #$20
    .a8
    .i16
    lda #$80
    sta $2100           ; dark
    stz $4200
    ; registers to zero
    ldx #$2101
:   stz a:0,x
    inx
    cpx #$2134
    bne :-
    lda #$80
    sta $2115
    ; work RAM to zero
    rep #$20
    .a16
    lda #0
    ldx #0
:   sta a:$0000,x
    inx
    inx
    cpx #$1f00
    bne :-
    sep #$20
    .a8
    ; palette: colour 0 dark blue, sprites' palettes bright
    stz $2121
    stz $2122
    lda #$28
    sta $2122
    lda #$80
    sta $2121
    ldx #0
:   lda palette,x
    sta $2122
    inx
    cpx #(16*2*4)
    bne :-
    ; tiles: four bit planes, of one byte pattern each
    rep #$20
    .a16
    stz $2116
    ldx #0
@tile:
    ldy #8
@row:
    lda patterns,x
    and #$ff
    sta tmp
    xba
    ora tmp
    sta $2118
    inx
    dey
    bne @row
    ldy #8
:   stz $2118
    dey
    bne :-
    cpx #(16*8)
    bne @tile
    ; a field of stars for background 1 (mode 1; its tiles at word $0000 too, its map at word $0800)
    lda #$0800
    sta $2116
    ldx #0
:   txa
    and #$1f
    cmp #9
    beq @star
    lda #0
    bra @put
@star:
    lda #15
@put:
    sta $2118
    inx
    cpx #1024
    bne :-
    sep #$20
    .a8
    lda #$01
    sta $2105           ; mode 1
    lda #$08
    sta $2107
    stz $210b
    lda #$11
    sta $212c           ; sprites and background 1
    stz $2101           ; sprites' tiles at word 0
    ; state
    rep #$20
    .a16
    lda #$ace1
    sta seed
    lda #64
    sta shipx
    lda #184
    sta shipx+2
    lda #190
    sta shipy
    sta shipy+2
    sep #$20
    .a8
    lda #$0f
    sta $2100
    lda #$81
    sta $4200           ; the blank's interrupt, and reading the pads
    cli
    rep #$30
    .a16
    .i16
main:
    stz ready
:   wai
    lda ready
    beq :-
    inc frames
    ldx #0
    jsr fly
    ldx #2
    jsr fly
    jsr move_shots
    jsr move_rocks
    jsr show
    jmp main

draw:                   ; a random number in A; keeps X and Y
    phy
    ldy #5
@again:
    lsr seed
    bcc :+
    lda seed
    eor #$b400
    sta seed
:   dey
    bne @again
    lda seed
    ply
    rts

fly:                    ; the ship X / 2
    lda pad,x
    beq :+
    jsr draw
:   lda pad,x
    bit #$0200          ; left
    beq :+
    lda shipx,x
    cmp #9
    bcc :+
    dec shipx,x
    dec shipx,x
:   lda pad,x
    bit #$0100          ; right
    beq :+
    lda shipx,x
    cmp #240
    bcs :+
    inc shipx,x
    inc shipx,x
:   lda pad,x
    bit #$0800          ; up
    beq :+
    lda shipy,x
    cmp #25
    bcc :+
    dec shipy,x
    dec shipy,x
:   lda pad,x
    bit #$0400          ; down
    beq :+
    lda shipy,x
    cmp #200
    bcs :+
    inc shipy,x
    inc shipy,x
:   lda reload,x
    beq :+
    dec reload,x
    rts
:   lda pad,x
    bit #$8080          ; B or A
    beq @done
    txa
    asl
    asl
    tay                 ; the first of its four shots
    lda #4
    sta tmp
@look:
    lda shoty,y
    beq @free
    iny
    iny
    dec tmp
    bne @look
@done:
    rts
@free:
    lda shipx,x
    sta shotx,y
    lda shipy,x
    sta shoty,y
    lda #8
    sta reload,x
    rts

move_shots:
    ldx #2*SHOTS-2
@each:
    lda shoty,x
    beq @next
    sec
    sbc #5
    cmp #16
    bcs :+
    lda #0
:   sta shoty,x
@next:
    dex
    dex
    bpl @each
    rts

near:                   ; carry clear if the word in A is within 8 of 0
    bpl :+
    eor #$ffff
    inc
:   cmp #8
    rts

move_rocks:
    ldx #2*ROCKS-2
@each:
    lda rocky,x
    bne @falls
    jsr draw
    and #31
    bne @next
    jsr draw
    and #$ff
    sta rockx,x
    lda #8
    sta rocky,x
    bra @next
@falls:
    txa
    and #2
    lsr
    inc                 ; 1 or 2
    clc
    adc rocky,x
    cmp #220
    bcc :+
    lda #0
:   sta rocky,x
    beq @next
    ldy #2*SHOTS-2
@shot:
    lda shoty,y
    beq @no
    sec
    sbc rocky,x
    jsr near
    bcs @no
    lda shotx,y
    sec
    sbc rockx,x
    jsr near
    bcs @no
    lda #0
    sta shoty,y
    stz rocky,x
    phx
    tya
    lsr
    lsr
    and #2
    tax
    lda score,x
    clc
    adc #10
    sta score,x
    plx
    bra @next
@no:
    dey
    dey
    bpl @shot
@next:
    dex
    dex
    bpl @each
    rts

sprite:                 ; x in tmp, y in A, tile and attributes in Y
    phx
    ldx next
    xba
    and #$ff00
    sta who
    lda tmp
    and #$ff
    ora who
    sta a:OAM,x
    tya
    sta a:OAM+2,x
    inx
    inx
    inx
    inx
    stx next
    plx
    rts

digits:                 ; the number in A, its last digit at tmp
    ldx #4
@each:
    sta f:$004204       ; the divider of the console
    sep #$20
    .a8
    lda #10
    sta f:$004206
    rep #$20
    .a16
    nop
    nop
    nop
    nop
    nop
    nop
    nop
    nop
    lda f:$004216
    inc
    ora #$3600
    tay
    lda #12
    jsr sprite
    lda tmp
    sec
    sbc #9
    sta tmp
    lda f:$004214
    dex
    bne @each
    rts

show:
    stz next
    lda shipx
    sta tmp
    lda shipy
    ldy #$300b
    jsr sprite
    lda shipx+2
    sta tmp
    lda shipy+2
    ldy #$320b
    jsr sprite
    ldx #2*SHOTS-2
:   lda shotx,x
    sta tmp
    lda shoty,x
    bne @on
    lda #240
@on:
    ldy #$340c
    jsr sprite
    dex
    dex
    bpl :-
    ldx #2*ROCKS-2
:   lda rockx,x
    sta tmp
    lda rocky,x
    bne @rock
    lda #240
@rock:
    ldy #$360d
    jsr sprite
    dex
    dex
    bpl :-
    lda #60
    sta tmp
    lda score
    jsr digits
    lda #240
    sta tmp
    lda score+2
    jsr digits
    rts

nmi:
    rep #$30
    pha
    phx
    phy
    phd
    lda #0
    tcd
    sep #$20
    .a8
    lda f:$004210
    stz $2102
    stz $2103
    ; sprites by the transfer
    stz $4300
    lda #$04
    sta $4301
    ldx #OAM
    stx $4302
    stz $4304
    ldx #544
    stx $4305
    lda #1
    sta $420b
    ; the background moves
    lda frames
    sta $210e
    stz $210e
    ; pads
:   lda f:$004212
    and #1
    bne :-
    rep #$20
    .a16
    lda f:$004218
    sta pad
    lda f:$00421a
    sta pad+2
    lda #1
    sta ready
    pld
    ply
    plx
    pla
irq:
    rti

.segment "RODATA"
palette:
    .word 0, $7fff, $7c00, $03e0, 0,0,0,0,0,0,0,0,0,0,0,0
    .word 0, $001f, $7c1f, $03ff, 0,0,0,0,0,0,0,0,0,0,0,0
    .word 0, $03ff, $001f, $7fff, 0,0,0,0,0,0,0,0,0,0,0,0
    .word 0, $56b5, $294a, $4210, 0,0,0,0,0,0,0,0,0,0,0,0
patterns:
    .byte $00,$00,$00,$00,$00,$00,$00,$00
    .byte $7c,$c6,$c6,$c6,$c6,$c6,$7c,$00
    .byte $18,$38,$18,$18,$18,$18,$7e,$00
    .byte $7c,$c6,$06,$1c,$70,$c0,$fe,$00
    .byte $7c,$c6,$06,$3c,$06,$c6,$7c,$00
    .byte $1c,$3c,$6c,$cc,$fe,$0c,$0c,$00
    .byte $fe,$c0,$fc,$06,$06,$c6,$7c,$00
    .byte $7c,$c0,$fc,$c6,$c6,$c6,$7c,$00
    .byte $fe,$06,$0c,$18,$30,$30,$30,$00
    .byte $7c,$c6,$c6,$7c,$c6,$c6,$7c,$00
    .byte $7c,$c6,$c6,$7e,$06,$0c,$78,$00
    .byte $18,$18,$3c,$3c,$7e,$ff,$e7,$81
    .byte $00,$18,$3c,$3c,$18,$18,$00,$00
    .byte $3c,$7e,$ff,$fb,$df,$ff,$7e,$3c
    .byte $00,$00,$00,$00,$00,$00,$00,$00
    .byte $00,$00,$00,$08,$00,$00,$00,$00

.segment "HEADER"
    .byte "FAZGROND ROCKS       "    ; 21
    .byte $20, $00, $05, $00, $01, $00, $00
    .word $5555, $aaaa
    .word 0, 0
    .word irq, irq, irq, nmi, 0, irq
    .word 0, 0
    .word irq, 0, irq, irq, reset, irq
