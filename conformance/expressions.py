"""What expressions give, the starts and resumptions of iters among them: each becomes a function of the activation that it is
evaluated in."""
from calls import ABSENT, Activation, Callee, Calls, Instance, Returning, filled, only_given
from features import as_bool, as_int, new_array
from values import FRAMES, Bound, Broke, Failed, Object, Raised, Stuck, Wide, is_void, object_size, type_of

MOST_LIVE = 10_000


def variables_of(args):
    """For each argument the variable that gets a value back, or None."""
    return [arg[2] if arg[0] == 'Variable' else None for arg in args]


class Expressions(Calls):
    """A run that evaluates expressions."""

    def expression(self, e):
        return getattr(self, 'expr_' + e[0].lower())(*e[1:])

    def expr_int(self, value):
        return lambda here: value

    expr_bool = expr_int

    def expr_char(self, byte):
        return lambda here: chr(byte)

    def expr_text(self, text):
        text = text.encode('latin-1')
        return lambda here: text

    def expr_voidof(self, ty):
        void = self.void_of(ty)
        return lambda here: void

    def expr_me(self):
        return lambda here: here.me

    def expr_var(self, var):
        return lambda here: here.variables[var]

    def expr_exception(self):
        return lambda here: here.exception

    def expr_isvoid(self, of):
        of = self.expression(of)
        return lambda here: is_void(of(here))

    def expr_new(self, ty, at):
        attrs = self.types[ty]['attrs']

        def new(here):
            self.state.charge(object_size(len(attrs)), at)
            return Object(ty, [self.void_of(attr) for attr in attrs])
        return new

    def expr_newarray(self, ty, count, at):
        count = self.expression(count)
        return lambda here: new_array(self, ty, at, as_int(count(here)))

    def expr_items(self, ty, elements, at):
        attrs, elements = self.types[ty]['attrs'], [self.expression(e) for e in elements]

        def array(here):
            values = [e(here) for e in elements]
            self.state.charge(object_size(len(attrs), len(values)), at)
            return Object(ty, [self.void_of(attr) for attr in attrs], values)
        return array

    def expr_call(self, called, on, args, at):
        on, given, back = self.expression(on), self.arguments(args), variables_of(args)

        def call(here):
            value = on(here)
            values = [argument(here) for argument in given]
            callee = self.callee(called, value, at)
            values, to, wide = self.handed(called, callee, values, back, at)
            result, variables = self.reached(callee.target, callee.owner, callee.me, values, here.depth, at)
            return self.brought(here, result, variables, to, wide, at)
        return call

    def expr_swapped(self, target, first, second, at):
        first, second = self.expression(first), self.expression(second)

        def call(here):
            value = first(here)
            me = second(here)
            return self.reached(target, None, me, [value], here.depth, at)[0]
        return call

    def expr_and(self, first, second):
        first, second = self.expression(first), self.expression(second)
        return lambda here: as_bool(first(here)) and second(here)

    def expr_or(self, first, second):
        first, second = self.expression(first), self.expression(second)
        return lambda here: as_bool(first(here)) or second(here)

    def expr_widen(self, ty, of, at):
        of = self.expression(of)

        def widen(here):
            value = of(here)
            if isinstance(value, Wide) or type_of(value) != ty:
                raise Stuck('a value of another class is widened')
            return self.widened(value, at)
        return widen

    def expr_bind(self, called, on, args, ty, at):
        on, given = self.expression(on), self.arguments(args)

        def bind(here):
            value = on(here)
            values = [argument(here) for argument in given]
            callee = self.callee(called, value, at)
            values, _, _ = self.handed(called, callee, values, [], at)
            kept = only_given(values)
            self.state.charge(object_size(1 + len(kept)), at)
            return Bound(ty, [callee.me, *kept], callee.target, callee.owner, [one is ABSENT for one in values])
        return bind

    def arguments(self, args, chosen=lambda mode: True):
        """The arguments of such modes as functions that give a value or ABSENT, which stands for the others too."""
        return [self.argument(arg) if arg[0] != 'Left' and chosen(arg[1]) else lambda here: ABSENT for arg in args]

    def argument(self, arg):
        form, mode, of = arg
        if form == 'Value':
            return self.expression(of)
        if mode == 'Inout':
            return lambda here: here.variables[of]
        return lambda here: ABSENT

    # ---- iters

    def expr_itercall(self, site, on, args, at):
        on, back = self.expression(on), variables_of(args)
        once = self.arguments(args, lambda mode: mode == 'Once')
        others = self.arguments(args, lambda mode: mode != 'Once')

        def call(here):
            called = here.feature.sites[site]['called']
            instance = here.sites.get(site)
            if instance is None:
                me = on(here)
                kept = [argument(here) for argument in once]
                values = [a if b is ABSENT else b for a, b in zip(kept, [argument(here) for argument in others])]
                callee = self.callee(called, me, at)
            else:
                values = [argument(here) for argument in others]
                callee = Callee(['Feature', instance.here.feature.number], None, instance.here.me, instance.through)
            values, to, wide = self.handed(called, callee, values, back, at)
            run = self.start if instance is None else self.resume
            instance = run(here, site, instance or callee, values, at)
            value = self.run_instance(here, site, instance)
            return self.brought(here, value, instance.here.variables, to, wide, at)
        return call

    def start(self, here, site, callee, values, at):
        """A new instance at a site."""
        form, number = callee.target
        if form != 'Feature' or not self.features[number].iter:
            raise Stuck('no iter is started')
        feature = self.features[number]
        self.state.turn()
        self.check_depth(here.depth, at)
        if self.state.live >= MOST_LIVE:
            raise Failed(FRAMES, at)
        self.state.live += 1
        inside = Activation(feature, callee.me, filled(feature.voids, values), here.depth + 1)
        instance = Instance(self.state.started, inside, callee.through, feature.body(inside))
        self.state.started += 1
        self.tell('start', here, site, instance)
        return here.sites.setdefault(site, instance)

    def tell(self, event, here, site, instance):
        """Keeps what becomes of the instance that was started at a site, where that is asked for."""
        if self.state.events is not None:
            self.state.events.append((event, here.feature.number, site, instance.number))

    def resume(self, here, site, instance, values, at):
        """The instance at a site, whose arguments that aren't `once` are set anew."""
        inside = instance.here
        feature = inside.feature
        self.state.turn()
        self.check_depth(here.depth, at)
        self.tell('resume', here, site, instance)
        modes = dict(enumerate(feature.modes))
        before = [feature.voids[place] if modes.get(place) == 'Out' else value for place, value in enumerate(inside.variables)]
        anew = [ABSENT if modes.get(place) == 'Once' else value for place, value in enumerate(values)]
        inside.variables = filled(before, anew)
        inside.depth = here.depth + 1
        return instance

    def run_instance(self, here, site, instance):
        """The value that an instance yields next. Where it ends, the loop around the call is left."""
        try:
            value = next(instance.left)
            self.tell('yield', here, site, instance)
            return value
        except StopIteration as ended:
            if isinstance(ended.value, Returning):
                raise Stuck('an iter returns') from None
        except Broke:
            raise Stuck('a loop of another feature is left') from None
        except Raised:
            self.instance_ends('abandon', here, site)
            raise
        self.instance_ends('quit', here, site)
        raise Broke

    def instance_ends(self, event, here, site):
        self.tell(event, here, site, here.sites.pop(site))
        self.state.live -= 1

    def end_loop(self, here, loop):
        """The instances of a loop end, in the order of their sites."""
        for site in sorted(site for site in here.sites if here.feature.sites[site]['owner'] == loop):
            self.abandon(here, site)

    def abandon(self, here, site):
        """The instance at a site ends, behind those inside it."""
        inside = here.sites[site].here
        for inner in sorted(inside.sites):
            self.abandon(inside, inner)
        self.instance_ends('abandon', here, site)
