; How the NES game begins, its interrupt, its pads and its tiles (NROM-256: 32 KB of program, 8 KB of tiles). ca65.
.export   __STARTUP__ : absolute = 1
.export   _wait_frame, _read_pads
.exportzp _pads, _signs
.export   _oam
.import   _main, zerobss, copydata
.importzp sp
.import   __STACKTOP__

.segment "HEADER"
    .byte "NES", $1a, 2, 1, $01, 0, 0,0,0,0,0,0,0,0

.segment "ZEROPAGE"
_pads:  .res 4          ; those of players 1 to 4
_signs: .res 2          ; $10 and $20 if there is a Four Score, by which there are players 3 and 4
ready:  .res 1

.segment "OAM"
_oam:   .res 256

.segment "STARTUP"
reset:
    sei
    cld
    ldx #$ff
    txs
    inx
    stx $2000
    stx $2001
    stx $4010
    lda #$40
    sta $4017
:   bit $2002
    bpl :-
    lda #0
    tax
:   sta $00,x
    sta $0200,x
    sta $0300,x
    sta $0400,x
    sta $0500,x
    sta $0600,x
    sta $0700,x
    inx
    bne :-
:   bit $2002
    bpl :-
    lda #<__STACKTOP__
    sta sp
    lda #>__STACKTOP__
    sta sp+1
    jsr zerobss
    jsr copydata
    ; palette
    lda #$3f
    sta $2006
    lda #0
    sta $2006
    ldx #0
:   lda palette,x
    sta $2007
    inx
    cpx #32
    bne :-
    ; a field of stars: nametable 0
    lda #$20
    sta $2006
    lda #0
    sta $2006
    ldy #4
    ldx #0
:   txa
    and #$1f
    cmp #7
    beq star
    cmp #19
    beq star
    lda #0
    jmp put
star:
    lda #16
put:
    sta $2007
    inx
    bne :-
    dey
    bne :-
    lda #$0f
    sta $4015
    lda #0
    sta $2005
    sta $2005
    lda #$80
    sta $2000
    lda #$1e
    sta $2001
    jmp _main

nmi:
    pha
    lda #0
    sta $2003
    lda #>_oam
    sta $4014
    lda #0
    sta $2005
    sta $2005
    lda #1
    sta ready
    pla
irq:
    rti

_wait_frame:
    lda #0
    sta ready
:   lda ready
    beq :-
    rts

; Each port gives eight bits of the first pad, then eight of the second, and then what the adapter signs with.
_read_pads:
    lda #1
    sta $4016
    lsr a
    sta $4016
    ldx #0
@pad:
    ldy #8
@bit:
    lda $4016
    lsr a
    rol _pads,x
    lda $4017
    lsr a
    rol _pads+1,x
    dey
    bne @bit
    inx
    inx
    cpx #6
    bne @pad
    rts

.segment "RODATA"
palette:
    .byte $0f,$00,$10,$30, $0f,$01,$11,$21, $0f,$06,$16,$26, $0f,$09,$19,$29
    .byte $0f,$12,$22,$32, $0f,$16,$26,$36, $0f,$1a,$2a,$3a, $0f,$28,$38,$30

.segment "VECTORS"
    .word nmi, reset, irq

.segment "CHARS"
; tiles 0..9 digits are made below; 16 star, 17 ship, 18 shot, 19 rock
.macro glyph p0, p1, p2, p3, p4, p5, p6, p7
    .byte p0, p1, p2, p3, p4, p5, p6, p7
    .byte p0, p1, p2, p3, p4, p5, p6, p7
.endmacro
    glyph $00,$00,$00,$00,$00,$00,$00,$00   ; 0: nothing
    glyph $7c,$c6,$c6,$c6,$c6,$c6,$7c,$00   ; 1..10: the digits
    glyph $18,$38,$18,$18,$18,$18,$7e,$00
    glyph $7c,$c6,$06,$1c,$70,$c0,$fe,$00
    glyph $7c,$c6,$06,$3c,$06,$c6,$7c,$00
    glyph $1c,$3c,$6c,$cc,$fe,$0c,$0c,$00
    glyph $fe,$c0,$fc,$06,$06,$c6,$7c,$00
    glyph $7c,$c0,$fc,$c6,$c6,$c6,$7c,$00
    glyph $fe,$06,$0c,$18,$30,$30,$30,$00
    glyph $7c,$c6,$c6,$7c,$c6,$c6,$7c,$00
    glyph $7c,$c6,$c6,$7e,$06,$0c,$78,$00
    .res 16*5
    glyph $00,$00,$00,$08,$00,$00,$00,$00   ; 16
    glyph $18,$18,$3c,$3c,$7e,$ff,$e7,$81   ; 17
    glyph $00,$18,$3c,$3c,$18,$18,$00,$00   ; 18
    glyph $3c,$7e,$ff,$fb,$df,$ff,$7e,$3c   ; 19
