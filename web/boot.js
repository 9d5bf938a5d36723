(async () => {
    'use strict';
    // Unpacks the page's script and the program's module, which stand in this file, and starts the script.
    // Nothing but what was made here from this file can become a script.
    const only = (address) => {
        if (!address.startsWith('blob:')) throw new TypeError('only scripts of this page');
        return address;
    };
    const policy = window.trustedTypes?.createPolicy('pmb', { createScriptURL: only }) ?? { createScriptURL: only };
    const unpack = async (name) => {
        const packed = Uint8Array.from(atob(document.getElementById(name).textContent), (it) => it.charCodeAt(0));
        const stream = new Blob([packed]).stream().pipeThrough(new DecompressionStream('gzip'));
        return new Uint8Array(await new Response(stream).arrayBuffer());
    };
    try {
        const module = await unpack('module');
        window.pmb = { policy, module: module.length > 8 ? await WebAssembly.compile(module) : null };
        // (a report has recordings inside)
        if (document.getElementById('inside').textContent) {
            window.pmb.inside = JSON.parse(new TextDecoder().decode(await unpack('inside')));
        }
        const script = document.createElement('script');
        const text = await unpack('script');
        script.src = policy.createScriptURL(URL.createObjectURL(new Blob([text], { type: 'text/javascript' })));
        document.head.append(script);
    } catch (mistake) {
        const sorry = document.getElementById('sorry');
        sorry.textContent = `This browser can't run the page: ${mistake.message}. It needs WebAssembly and ` +
            'DecompressionStream: Chrome or Edge 103, Firefox 115, Safari 16.4, or newer.';
        sorry.hidden = false;
    }
})();
