// A harness for the pages of this folder, which run where no checkout is at hand. It has the calls of the Web Platform Tests' own harness that these pages
// use, written anew and much smaller: a page that passes here is a page that runs in a checkout too.
(function (scope) {
  const PASSED = 0;
  const FAILED = 1;
  const NOT_RUN = 3;
  const harness = { status: 0, message: null };
  const tests = [];
  const tellers = [];
  const settings = { isLoaded: false, isExplicit: false, isDone: false, isTold: false };

  class Failure extends Error {}

  function settle() {
    const isReady = settings.isLoaded && tests.every((it) => it.isDone) && (settings.isDone || !settings.isExplicit);
    if (!isReady || settings.isTold) return;
    settings.isTold = true;
    for (const tell of tellers) tell(tests, harness);
  }

  class Test {
    constructor(name) {
      Object.assign(this, { name, status: NOT_RUN, message: null, isDone: false });
      tests.push(this);
    }

    step(action, ...values) {
      if (this.isDone) return undefined;
      try {
        return action.apply(this, [this, ...values]);
      } catch (fault) {
        this.end(FAILED, String(fault.message ?? fault));
        return undefined;
      }
    }

    step_func(action) {
      return (...values) => this.step(() => action.apply(this, values));
    }

    step_func_done(action) {
      return (...values) => {
        this.step(() => action?.apply(this, values));
        this.done();
      };
    }

    end(status, message = null) {
      if (!this.isDone) Object.assign(this, { status, message, isDone: true });
      scope.setTimeout(settle, 0);
    }

    done() {
      this.end(PASSED);
    }
  }

  const shown = (value) => (typeof value === "string" ? JSON.stringify(value) : String(value));
  const isSame = (one, other) => Object.is(one, other);

  function assert(is, said, description) {
    if (!is) throw new Failure(description ? `${description}: ${said}` : said);
  }

  function thrownBy(action, description) {
    try {
      action();
    } catch (fault) {
      return fault;
    }
    throw new Failure(`${description ? `${description}: ` : ""}nothing was thrown`);
  }

  const calls = {
    setup(first, second) {
      const properties = typeof first === "function" ? second : first;
      if (properties?.explicit_done) settings.isExplicit = true;
      if (typeof first === "function") first();
    },
    done() {
      settings.isDone = true;
      settle();
    },
    add_completion_callback: (tell) => void tellers.push(tell),
    test(action, name) {
      const it = new Test(name);
      it.step(action);
      it.done();
    },
    async_test(first, second) {
      const it = new Test(second ?? first);
      if (second !== undefined) it.step(first);
      return it;
    },
    promise_test(action, name) {
      const it = new Test(name);
      Promise.resolve(it.step(action)).then(() => it.done(), (fault) => it.end(FAILED, String(fault.message ?? fault)));
    },
    assert_equals: (actual, expected, description) => assert(isSame(actual, expected), `expected ${shown(expected)} but got ${shown(actual)}`, description),
    assert_not_equals: (actual, other, description) => assert(!isSame(actual, other), `got ${shown(actual)}`, description),
    assert_true: (actual, description) => assert(actual === true, `expected true but got ${shown(actual)}`, description),
    assert_false: (actual, description) => assert(actual === false, `expected false but got ${shown(actual)}`, description),
    assert_unreached: (description) => assert(false, "this was reached", description),
    assert_array_equals(actual, expected, description) {
      assert(actual.length === expected.length, `expected ${expected.length} entries but got ${actual.length}`, description);
      expected.forEach((it, at) => assert(isSame(actual[at], it), `at ${at} expected ${shown(it)} but got ${shown(actual[at])}`, description));
    },
    assert_throws_dom(name, second, third, fourth) {
      const [type, action, description] = second.name === "DOMException" ? [second, third, fourth] : [scope.DOMException, second, third];
      const fault = thrownBy(action, description);
      assert(fault.name === name && fault.constructor === type, `expected ${name} but got ${fault.constructor?.name} ${fault.name}: ${fault.message}`, description);
    },
    assert_throws_js(type, action, description) {
      const fault = thrownBy(action, description);
      assert(fault.constructor === type, `expected ${type.name} but got ${fault}`, description);
    },
  };
  Object.assign(scope, calls);
  scope.addEventListener("load", () => scope.setTimeout(() => { settings.isLoaded = true; settle(); }, 0));
  scope.addEventListener("error", (event) => Object.assign(harness, { status: 1, message: event.message }));
})(self);
