"""Reads packets and makes telecommands by an XTCE file alone: as much of XTCE as a database of packets needs.

    database = Database("ocp.xml")
    container, values = database.decode(packet)
    octets = database.encode("stop", id=7, step=2)

A number has a sign if its encoding is twosComplement. An array is a list, an aggregate a dictionary. What the file leaves to
the ground system, a telecommand's count, length and error control, is done by `sealed`.
"""
import binascii
import xml.etree.ElementTree as ET


class Refused(Exception):
    """A packet or arguments that the database does not have; the text says why."""


def local(element):
    return element.tag.rsplit("}", 1)[-1]


class Bits:
    """Octets, read from their first bit on."""

    def __init__(self, octets):
        self.number, self.left = int.from_bytes(octets, "big"), 8 * len(octets)

    def take(self, size):
        if size > self.left:
            raise Refused(f"{size} bits are wanted, and {self.left} are left")
        self.left -= size
        return self.number >> self.left & (1 << size) - 1


class Database:
    """The types, parameters, containers and commands of a file."""

    def __init__(self, path):
        root = ET.parse(path).getroot()
        for element in root.iter():
            element.tag = local(element)
        self.parameter_types = {one.get("name"): one for one in root.find("TelemetryMetaData/ParameterTypeSet")}
        self.parameters = {one.get("name"): one.get("parameterTypeRef") for one in root.find("TelemetryMetaData/ParameterSet")}
        self.containers = {one.get("name"): one for one in root.find("TelemetryMetaData/ContainerSet")}
        self.argument_types = {one.get("name"): one for one in root.find("CommandMetaData/ArgumentTypeSet")}
        self.commands = {one.get("name"): one for one in root.find("CommandMetaData/MetaCommandSet")}

    # ---- reports

    def decode(self, packet):
        """The container that fits, the one that extends no further, and the values of its parameters."""
        values, bits = {}, Bits(packet)
        name = next(name for name, one in self.containers.items() if one.find("BaseContainer") is None)
        while name:
            last = name
            self.read_entries(self.containers[name], bits, values)
            fitting = [name for name, one in self.containers.items() if self.extends(one, last, values)]
            if len(fitting) > 1:
                raise Refused(f"{last} is {' and '.join(fitting)} at once")
            name = fitting[0] if fitting else None
        if self.containers[last].get("abstract") == "true":
            raise Refused(f"it is no more than {last}: {values}")
        if bits.left:
            raise Refused(f"{bits.left} bits are left after {last}")
        return last, values

    def extends(self, container, base, values):
        of = container.find("BaseContainer")
        return of is not None and of.get("containerRef") == base and all(self.holds(one, values) for one in of.iter("Comparison"))

    def holds(self, comparison, values):
        """Whether a comparison holds: by the number if it says so, else by the label."""
        name, wanted = comparison.get("parameterRef"), comparison.get("value")
        if comparison.get("useCalibratedValue", "true") == "true":
            return name in values and str(values[name]) == wanted
        return name in values and self.number_of(self.parameters[name], values[name]) == int(wanted)

    def number_of(self, type_name, value):
        numbers = {one.get("label"): int(one.get("value")) for one in self.parameter_types[type_name].iter("Enumeration")}
        return numbers.get(value, value)

    def read_entries(self, container, bits, values):
        for entry in container.find("EntryList"):
            condition = entry.find("IncludeCondition/Comparison")
            if condition is None or self.holds(condition, values):
                name = entry.get("parameterRef")
                values[name] = self.read(self.parameters[name], bits, values)

    def read(self, type_name, bits, values):
        """One value of a type."""
        made = self.parameter_types[type_name]
        if made.tag == "ArrayParameterType":
            return [self.read(made.get("arrayTypeRef"), bits, values) for _ in range(self.length(made, values))]
        if made.tag == "AggregateParameterType":
            return {one.get("name"): self.read(one.get("typeRef"), bits, values) for one in made.iter("Member")}
        encoding = made.find("IntegerDataEncoding")
        size = int(encoding.get("sizeInBits"))
        number = bits.take(size)
        if encoding.get("encoding") == "twosComplement" and number >> size - 1:
            number -= 1 << size
        if made.tag == "BooleanParameterType":
            if number > 1:
                raise Refused(f"{type_name} is {number}")
            return bool(number)
        if made.tag != "EnumeratedParameterType":
            return number
        label = next((one.get("label") for one in made.iter("Enumeration") if int(one.get("value")) == number), None)
        if label is None:
            raise Refused(f"{type_name} has no label for {number}")
        return label

    @staticmethod
    def dynamic(value, values):
        """What a DynamicValue says, from the values that were read or given before."""
        name = "ArgumentInstanceRef" if value.find("ParameterInstanceRef") is None else "ParameterInstanceRef"
        reference = value.find(name)
        number = values[reference.get("parameterRef") or reference.get("argumentRef")]
        adjusted = value.find("LinearAdjustment")
        return number if adjusted is None else number * int(adjusted.get("slope")) + int(adjusted.get("intercept"))

    def length(self, array, values):
        first = int(array.find("DimensionList/Dimension/StartingIndex/FixedValue").text)
        return self.dynamic(array.find("DimensionList/Dimension/EndingIndex/DynamicValue"), values) - first + 1

    # ---- telecommands

    def encode(self, command, /, **arguments):
        """The telecommand's octets, before `sealed`."""
        chain = self.chain(command)
        given = {}
        for one in chain:
            for argument in one.findall("ArgumentList/Argument"):
                initial = argument.get("initialValue") or self.argument_types[argument.get("argumentTypeRef")].get("initialValue")
                given[argument.get("name")] = (argument.get("argumentTypeRef"), initial)
        fixed = {one.get("argumentName"): one.get("argumentValue") for made in chain for one in made.iter("ArgumentAssignment")}
        if unknown := set(arguments) - set(given) | set(arguments) & set(fixed):
            raise Refused(f"{command} has no argument {', '.join(sorted(unknown))}")
        values, written = {}, []
        for one in chain:
            for entry in one.find("CommandContainer/EntryList"):
                if entry.tag == "FixedValueEntry":
                    written.append((int(entry.get("binaryValue"), 16), int(entry.get("sizeInBits"))))
                    continue
                name = entry.get("argumentRef")
                type_name, initial = given[name]
                value = arguments.get(name, fixed.get(name, initial))
                if value is None:
                    raise Refused(f"{command}: {name} is missing")
                values[name] = int(value) if isinstance(value, str) and value.isdigit() else value
                written += self.write(type_name, values[name], values)
        number, size = 0, 0
        for value, bits in written:
            number, size = number << bits | value, size + bits
        return number.to_bytes(size // 8, "big")

    def chain(self, command):
        """The command, after those that it extends."""
        if command not in self.commands or self.commands[command].get("abstract") == "true":
            raise Refused(f"there is no telecommand {command}")
        chain = [self.commands[command]]
        while (base := chain[0].find("BaseMetaCommand")) is not None:
            chain.insert(0, self.commands[base.get("metaCommandRef")])
        return chain

    def write(self, type_name, value, values):
        """The numbers and bits of one value of a type, within its range."""
        made = self.argument_types[type_name]
        if made.tag == "ArrayArgumentType":
            if len(value) != self.length(made, values):
                raise Refused(f"{len(value)} elements, not {self.length(made, values)} as announced")
            return [pair for one in value for pair in self.write(made.get("arrayTypeRef"), one, values)]
        if made.tag == "BinaryArgumentType":
            size = self.dynamic(made.find("BinaryDataEncoding/SizeInBits/DynamicValue"), values)
            if size != 8 * len(value):
                raise Refused(f"{8 * len(value)} bits, not {size} as announced")
            return [(int.from_bytes(value, "big"), size)]
        bits = int(made.find("IntegerDataEncoding").get("sizeInBits"))
        if made.tag == "BooleanArgumentType":
            return [((made.get("zeroStringValue"), made.get("oneStringValue")).index(str(value)), bits)]
        limits = made.find("ValidRangeSet/ValidRange")
        if not int(limits.get("minInclusive")) <= value <= int(limits.get("maxInclusive")):
            raise Refused(f"{value} is not in {limits.get('minInclusive')} to {limits.get('maxInclusive')}")
        return [(value, bits)]

    def verifiers(self, command):
        """The containers that verify its stages, by the names of the elements."""
        return {one.tag: one.find("ContainerRef").get("containerRef")
                for one in self.commands[command].find("VerifierSet") if one.find("ContainerRef") is not None}


def sealed(octets, count):
    """The telecommand with its count, length and error control."""
    head = octets[:2] + (int.from_bytes(octets[2:4], "big") | count).to_bytes(2, "big") + (len(octets) + 2 - 7).to_bytes(2, "big")
    packet = head + octets[6:]
    return packet + binascii.crc_hqx(packet, 0xFFFF).to_bytes(2, "big")
