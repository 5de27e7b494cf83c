// Which bindings each entry point of a WGSL text uses, and what each holds: a walk over tokens, and no compiler.
//
// The grammar that it reads, where `..` stands for tokens with all brackets closed, and comments and space may stand anywhere:
//
//     text        = { directive | declaration | ";" }
//     directive   = ( "enable" | "requires" | "diagnostic" ) .. ";"
//     declaration = { attribute } ( variable | constant | alias | struct | function | assertion )
//     attribute   = "@" name [ "(" .. ")" ]
//     variable    = "var" [ "<" space [ "," access ] [ "," ] ">" ] name [ ":" type ] [ "=" .. ] ";"
//     constant    = ( "const" | "override" ) name [ ":" type ] [ "=" .. ] ";"
//     alias       = "alias" name "=" type ";"
//     struct      = "struct" name "{" .. "}"
//     function    = "fn" name "(" [ parameter { "," parameter } [ "," ] ] ")" [ "->" .. ] "{" .. "}"
//     parameter   = { attribute } name ":" type
//     assertion   = "const_assert" .. ";"
//
// In the body of a function a name stands for a global variable or a function where no parameter and no `let`, `var` or `const` of a block
// around it hides it, and where no point stands before it. A group or a binding is a number or the name of a constant that is one. A type of a
// variable that is bound is one of those of textures and samplers, or an alias of one; in the spaces uniform and storage it may be any.
const WGSL = (() => {
  // The text says something that this cannot read; `at` is the place in it, as line and column.
  class Missed extends Error {
    constructor(message, text, offset) {
      super(message);
      const before = text.slice(0, offset).split('\n');
      this.at = `${before.length}:${before[before.length - 1].length + 1}`;
    }
  }

  const TOKEN = /([\p{L}_][\p{L}\p{N}_]*)|(0[xX][\da-fA-F.]+(?:[pP][+-]?\d+)?[iufh]?|\.?\d[\w.]*(?:(?<=[eE])[+-]\d+\w?)?)|(->|&&|\|\||.)/suy;
  const SPACE = /(?:\s+|\/\/[^\n\v\f\r\u0085\u2028\u2029]*)*/uy;
  const CLOSING = { '(': ')', '{': '}', '[': ']' };

  // The place behind a comment in a block, which may have others in it.
  function behindComment(text, from) {
    let depth = 0, at = from;
    do {
      if (at >= text.length) throw new Missed('a comment that is not closed', text, from);
      if (text.startsWith('/*', at)) { depth++; at += 2; } else if (text.startsWith('*/', at)) { depth--; at += 2; } else at++;
    } while (depth);
    return at;
  }

  function tokensOf(text) {
    const found = [];
    for (let at = 0; ;) {
      SPACE.lastIndex = at;
      SPACE.exec(text);
      at = SPACE.lastIndex;
      if (at >= text.length) return found;
      if (text.startsWith('/*', at)) { at = behindComment(text, at); continue; }
      TOKEN.lastIndex = at;
      const token = TOKEN.exec(text);
      found.push({ word: token[0], at, isName: token[1] !== undefined });
      at = TOKEN.lastIndex;
    }
  }

  // A list of tokens, cut at commas that stand in no bracket.
  function split(tokens) {
    const parts = [[]];
    let depth = 0;
    for (const token of tokens) {
      if ('([{<'.includes(token.word)) depth++;
      else if (')]}>'.includes(token.word)) depth--;
      if (token.word === ',' && depth <= 0) parts.push([]); else parts[parts.length - 1].push(token);
    }
    return parts.filter(part => part.length);
  }

  class Reader {
    constructor(text) {
      Object.assign(this, { text, tokens: tokensOf(text), at: 0, vars: new Map(), functions: new Map(), constants: new Map(), aliases: new Map() });
      while (this.at < this.tokens.length) this.declaration();
    }

    missed(message, token = this.tokens[this.at]) { throw new Missed(message, this.text, token ? token.at : this.text.length); }
    word() { return this.at < this.tokens.length ? this.tokens[this.at].word : ''; }
    take(word) {
      if (this.word() !== word) this.missed(`${this.word() || 'the end'} where ${word} has to be`);
      this.at++;
    }
    name() {
      if (!this.tokens[this.at] || !this.tokens[this.at].isName) this.missed(`${this.word() || 'the end'} where a name has to be`);
      return this.tokens[this.at++].word;
    }

    // At an opening bracket: the tokens inside.
    bracket(open) {
      const start = this.tokens[this.at];
      this.take(open);
      const inside = this.upto(CLOSING[open], start);
      this.at++;
      return inside;
    }
    // The tokens up to the first of some words that stands in no further bracket.
    upto(ends, start = this.tokens[this.at]) {
      const from = this.at, open = [];
      for (; this.at < this.tokens.length; this.at++) {
        const word = this.word();
        if (!open.length && (ends === word || Array.isArray(ends) && ends.includes(word))) return this.tokens.slice(from, this.at);
        if (CLOSING[word]) open.push(CLOSING[word]);
        else if (word === open[open.length - 1]) open.pop();
        else if (')]}'.includes(word)) this.missed(`a ${word} that closes nothing`);
      }
      return this.missed('what begins here is not closed', start);
    }
    template() {                       // at a <
      this.take('<');
      const inside = this.upto('>');
      this.at++;
      return inside.filter(token => token.word !== ',').map(token => token.word);
    }

    declaration() {
      const attributes = {};
      while (this.word() === '@') {
        this.at++;
        const name = this.name();
        attributes[name] = this.word() === '(' ? this.bracket('(') : [];
      }
      const token = this.tokens[this.at], word = this.name_or_end();
      if (word === 'var') this.variable(attributes, token);
      else if (word === 'fn') this.function(attributes);
      else if (word === 'const' || word === 'override') this.constant();
      else if (word === 'alias') this.alias();
      else if (word === 'struct') { this.name(); this.bracket('{'); }
      else if (['enable', 'requires', 'diagnostic', 'const_assert'].includes(word)) { this.upto(';'); this.at++; }
      else if (word !== ';') this.missed(`a declaration that begins with ${word}`, token);
    }
    name_or_end() { return this.word() === ';' ? (this.at++, ';') : this.name(); }

    variable(attributes, token) {
      const space = this.word() === '<' ? this.template() : [], name = this.name();
      let type = [];
      if (this.word() === ':') { this.at++; type = this.upto(['=', ';']); }
      this.upto(';');
      this.at++;
      this.vars.set(name, { name, attributes, space, type, token });
    }
    constant() {
      const name = this.name();
      this.upto(['=', ';']);
      if (this.word() === '=') { this.at++; this.constants.set(name, this.upto(';')); }
      this.take(';');
    }
    alias() {
      const name = this.name();
      this.take('=');
      this.aliases.set(name, this.upto(';'));
      this.at++;
    }
    function(attributes) {
      const name = this.name(), parameters = split(this.bracket('(')).map(part => {
        const colon = part.findIndex(token => token.word === ':');
        return colon > 0 ? part[colon - 1].word : this.missed('a parameter without a type', part[0]);
      });
      this.upto('{');
      this.functions.set(name, { name, attributes, parameters, body: this.bracket('{') });
    }
  }

  function numberOf(module, tokens, token, seen = 0) {
    const word = tokens.length === 1 ? tokens[0].word : '';
    if (/^\d+[iu]?$/.test(word)) return parseInt(word, 10);
    if (/^0[xX][\da-fA-F]+[iu]?$/.test(word)) return parseInt(word, 16);
    if (module.constants.has(word) && seen < 9) return numberOf(module, module.constants.get(word), token, seen + 1);
    throw new Missed(`the number ${tokens.map(each => each.word).join(' ')} of a group or a binding`, module.text, (tokens[0] || token).at);
  }

  // What a variable holds, in the keys of an interface.
  function kindOf(module, variable) {
    if (variable.space[0] === 'uniform') return { kind: 'uniform' };
    if (variable.space[0] === 'storage') return { kind: variable.space[1] === 'read_write' ? 'storage' : 'read-only-storage' };
    const named = word => module.aliases.has(word) && module.aliases.get(word).length === 1 ? module.aliases.get(word)[0].word : word;
    let type = variable.type.map(token => token.word);
    for (let n = 0; n < 9 && type.length === 1 && module.aliases.has(type[0]); n++) type = module.aliases.get(type[0]).map(token => token.word);
    const of = type.slice(2, -1).filter(word => word !== ',').map(named), kind = handleOf(type[0] || '', of);
    if (kind) return kind;
    throw new Missed(`the type ${type.join('')} of a binding`, module.text, (variable.type[0] || variable.token).at);
  }

  const dimOf = word => word.replace('_', '-');

  // What a texture or a sampler is, by the first word of its type and those between < and >; null of another type.
  function handleOf(head, of) {
    if (head === 'sampler') return { kind: 'sampler', type: 'filtering' };
    if (head === 'sampler_comparison') return { kind: 'sampler', type: 'comparison' };
    if (head === 'texture_external') return { kind: 'external-texture' };
    const stored = /^texture_storage_(1d|2d|2d_array|3d)$/.exec(head);
    const access = { read: 'read-only', write: 'write-only', read_write: 'read-write' }[of[1]];
    if (stored && access) return { kind: 'storage-texture', access, format: of[0], dim: dimOf(stored[1]) };
    const depth = /^texture_depth_(multisampled_)?(2d|2d_array|cube|cube_array)$/.exec(head);
    if (depth) return { kind: 'texture', sample: 'depth', dim: dimOf(depth[2]), multi: !!depth[1] };
    const plain = /^texture_(multisampled_)?(1d|2d|2d_array|3d|cube|cube_array)$/.exec(head);
    const sample = { f32: 'float', i32: 'sint', u32: 'uint' }[of[0]];
    if (!plain || !sample) return null;
    return { kind: 'texture', sample: plain[1] && sample === 'float' ? 'unfilterable-float' : sample, dim: dimOf(plain[2]), multi: !!plain[1] };
  }

  // The names that the blocks around a token declare.
  class Scopes {
    constructor(parameters) { this.all = [{ names: new Set(parameters) }]; }
    hides(name) { return this.all.some(scope => scope.names.has(name)); }
    open(isFor) { this.all.push({ names: new Set(), isFor }); }
    close() {
      this.all.pop();
      if (this.all.length > 1 && this.all[this.all.length - 1].isFor) this.all.pop();
    }
    declare(name) { this.all[this.all.length - 1].names.add(name); }
  }

  // What the body of a function names: global variables, and calls with the names that stand alone in their arguments.
  function look(module, fn) {
    if (fn.looked) return fn.looked;
    const uses = new Set(), calls = [], scopes = new Scopes(fn.parameters), body = fn.body, waiting = [];
    let depth = 0;
    for (let i = 0; i < body.length; i++) {
      const { word, isName } = body[i];
      if (word === '(' || word === '[') depth++;
      else if (word === ')' || word === ']') depth--;
      else if (word === '{') scopes.open(false);
      else if (word === '}') scopes.close();
      else if (word === 'for') scopes.open(true);
      while (waiting.length && word === ';' && depth <= waiting[waiting.length - 1].depth) scopes.declare(waiting.pop().name);
      if (!isName || i && body[i - 1].word === '.') continue;
      if (word === 'let' || word === 'var' || word === 'const') { i = declared(body, i); waiting.push({ name: body[i].word, depth }); continue; }
      if (scopes.hides(word)) continue;
      if (module.vars.has(word)) uses.add(word);
      if (module.functions.has(word) || /^texture(Sample|Gather)/.test(word)) calls.push({ name: word, given: givenAt(body, i + 1) });
    }
    fn.looked = { uses, calls };
    return fn.looked;
  }

  // The place of the name that a `let`, `var` or `const` declares.
  function declared(body, at) {
    let name = at + 1;
    if (body[name].word === '<') { while (body[name].word !== '>') name++; name++; }
    return name;
  }

  // Of a call the names that stand alone in its arguments, null for other arguments.
  function givenAt(body, at) {
    if (!body[at] || body[at].word !== '(') return [];
    let depth = 0, end = at;
    do { if (body[end].word === '(') depth++; else if (body[end].word === ')') depth--; end++; } while (depth && end < body.length);
    return split(body.slice(at + 1, end - 1)).map(part => part.length === 1 ? part[0].word : null);
  }

  function reached(module, fn, found = new Set()) {
    if (found.has(fn)) return found;
    found.add(fn);
    for (const call of look(module, fn).calls) if (module.functions.has(call.name)) reached(module, module.functions.get(call.name), found);
    return found;
  }

  // The names, of parameters and global variables, that a function gives to a call that samples them, by itself or by what it calls.
  function sampled(module, fn) {
    if (fn.sampled) return fn.sampled;
    const found = fn.sampled = new Set();
    for (const call of look(module, fn).calls) {
      const inner = module.functions.get(call.name);
      if (!inner) { call.given.forEach(name => name && found.add(name)); continue; }
      for (const name of sampled(module, inner)) {
        const at = inner.parameters.indexOf(name);
        if (at < 0) found.add(name); else if (call.given[at]) found.add(call.given[at]);
      }
    }
    return found;
  }

  // What an entry point uses of its groups, in the keys of an interface; `sampled` says that a texture is used with a sampler.
  function entry(module, stage, name) {
    const all = [...module.functions.values()].filter(fn => fn.attributes[stage]);
    const fn = name === undefined || name === null ? all.length === 1 ? all[0] : null : all.find(each => each.name === name);
    if (!fn) throw new Missed(name ? `no entry point ${name} of the stage ${stage}` : `other than one entry point of the stage ${stage}`, module.text, 0);
    const used = new Set(), found = [];
    for (const each of reached(module, fn)) for (const variable of look(module, each).uses) used.add(variable);
    for (const variable of module.vars.values()) {
      const { group, binding } = variable.attributes;
      if (!used.has(variable.name) || !group || !binding) continue;
      const at = { group: numberOf(module, group, variable.token), binding: numberOf(module, binding, variable.token) };
      found.push({ ...at, ...kindOf(module, variable), sampled: sampled(module, fn).has(variable.name) });
    }
    return found;
  }

  return { read: text => new Reader(text), entry, Missed };
})();
