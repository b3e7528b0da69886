"""An orchestra as the front knows it: the panel's bytes, its instruments, and the symbols of its names."""
from __future__ import annotations

from dataclasses import dataclass

from . import files, orchestra_rules, orchestra_tokens
from .faults import Fault, Warnings
from .orchestra_rules import Instrument
from .symbols import Symbols, numbered

# Words that SAOL keeps for itself and the panel does not.
RESERVED = frozenset("""
aopcode exports extend global inchannels interp iopcode kopcode krate map opcode oparray outbus outchannels
preset return route sasbf send sequence spatialize srate table tablemap template turnoff while with xsig
s_rate k_rate inchan outchan time dur cpuload itime input inGroup released params MIDIctrl MIDItouch MIDIbend
sample data random step lineseg expseg cubicseg spline polynomial window harm harm_phase periodic buzz concat empty
dbamp ampdb exp log sqrt sin cos atan pow log10 asin acos ceil floor gettune settune pchoct octpch cpspch pchcps
cpsoct octcps pchmidi midipch octmidi midioct cpsmidi midicps ftlen ftloop ftloopend ftsr ftbasecps ftsetloop
ftsetend ftsetbase ftsetsr tableread tablewrite oscil loscil doscil koscil kline aline kexpon aexpon kphasor aphasor
pluck grain irand krand arand ilinrand klinrand alinrand iexprand kexprand aexprand kpoissonrand apoissonrand
igaussrand kgaussrand agaussrand port hipass lopass bandpass bandstop biquad allpass comb fir iir firt iirt fft ifft
rms gain balance compressor decimate upsamp downsamp samphold sblock delay delay1 fracdelay gettempo settempo chorus
flange reverb speedt fx_speedc effect
""".split())


@dataclass
class Orchestra:
    """What is handed to the panel, and what is known of it."""
    path: str
    data: bytes
    instruments: list[Instrument]
    symbols: Symbols
    has_names: bool

    def symbol_of(self, name: str) -> int:
        """The symbol of one of its names, which may be written by number."""
        number = numbered(name) if name not in self.symbols.of else None
        return self.symbols.of[name] if number is None else number

    def by_symbol(self) -> dict[int, Instrument]:
        return {self.symbol_of(instrument.name): instrument for instrument in self.instruments}

    def names(self) -> str:
        """The instruments, for a message."""
        return ", ".join(f"`{instrument.name}`" for instrument in self.instruments)


def from_text(path: str, text: str, warnings: Warnings) -> Orchestra:
    """A written orchestra, assembled."""
    symbols = Symbols()
    tokens = orchestra_tokens.from_text(path, text)
    data = orchestra_tokens.to_bytes(path, tokens, symbols)
    orchestra_tokens.measure(tokens)
    instruments = orchestra_rules.instruments_of(path, tokens)
    warned: set[str] = set()
    for token in tokens:
        if token.kind == "name" and token.text in RESERVED and token.text not in warned:
            warned.add(token.text)
            warnings.add(token.where, f"`{token.text}` is a reserved word of SAOL; other players refuse it as a name")
    return Orchestra(path, data, instruments, symbols, has_names=True)


def from_bytes(path: str, data: bytes, symbols: Symbols | None) -> Orchestra:
    """The panel's bytes, with a symbol table's names where there is one."""
    names = symbols or Symbols()
    tokens = orchestra_tokens.from_bytes(path, data, names)
    orchestra_tokens.measure(tokens)
    return Orchestra(path, data, orchestra_rules.instruments_of(path, tokens), names, has_names=symbols is not None)


def read(path: str, data: bytes, symbols: Symbols | None, warnings: Warnings) -> Orchestra:
    """An orchestra as text or as bytes."""
    if not data:
        raise Fault(f"{path}: empty, so no instrument")
    text = files.text_in(data)
    return from_bytes(path, data, symbols) if text is None else from_text(path, text, warnings)
